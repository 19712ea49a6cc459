"""A sheet that comes in parts, and what is told after its end."""
import pasoletu

sheet = pasoletu.write_sheet(pasoletu.SnowPlasticity(), [pasoletu.Particle.stretched([s, 1.0, 1.0]) for s in (1.0, 0.9)])
arrival = pasoletu.Arrival()
for k in range(0, len(sheet), 200):
    print(arrival.feed(sheet[k:k + 200]), "of", arrival.count)
ran = arrival.finish()
print(ran.passed, bytes(ran) == bytes(pasoletu.run(sheet)))
try:
    arrival.feed(b"")
except pasoletu.Refused as e:
    print("refused by", e.number)
