"""A pass over three particles of snow: one at rest, one crushed, one with a NaN."""
import pasoletu

particles = [pasoletu.Particle.stretched([sigma, 1.0, 1.0]) for sigma in (1.0, 0.9, float("nan"))]
passed = pasoletu.pass_particles(pasoletu.SnowPlasticity(), particles)
for particle, outcome in zip(particles, passed.outcomes):
    if isinstance(outcome, pasoletu.Stored):
        print("elastic hardening %.6f, sigma[0] %.6f" % (outcome.amount, particle.singular_values[0]))
    else:
        print(outcome)
print(passed.untouched, "untouched,", passed.stored, "stored,", passed.refused, "refused")
