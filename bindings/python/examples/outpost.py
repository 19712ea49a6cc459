"""A sheet is written, and the office runs it."""
import pasoletu

ridge = [pasoletu.Particle(), pasoletu.Particle.stretched([0.9, 1.0, 1.02]), pasoletu.Particle.stretched([float("nan"), 1.0, 1.0])]
data = pasoletu.write_sheet(pasoletu.SnowPlasticity(), ridge)
print(len(data), "bytes; the office answers:")
for outcome in pasoletu.run(data).passed.outcomes:
    print(outcome)
