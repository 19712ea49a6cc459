"""A pass over a flat section."""
import pasoletu

section = [pasoletu.FlatParticle.stretched(sigma) for sigma in ([1.0, 1.0], [1.3, 0.9], [float("nan"), 1.0])]
passed = pasoletu.flat_pass(pasoletu.SnowPlasticity(), section)
print(passed.stored, "stored,", passed.refused, "refused; sigma", section[1].singular_values)
