"""A particle's stress with the verdict on it."""
from pasoletu import CorotatedLinearElasticity, MaximumStressFailure, Particle

law, limits = CorotatedLinearElasticity.new(1e5, 0.3), MaximumStressFailure(2e4, 1e4)
told = law.stress_and_verdict(limits, Particle.stretched([1.2, 1.0, 1.0]))
print("stress %.0f, failed: %s" % (told.stress[0][0], told.failed))
