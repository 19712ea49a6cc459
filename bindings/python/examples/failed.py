"""A pass that then judges failure: soft snow yields, hardened snow fails."""
import pasoletu

pulled, crushed = pasoletu.Particle.stretched([1.2, 1.0, 1.0]), pasoletu.Particle.stretched([0.8, 1.0, 1.0])
particles = [pasoletu.Particle(), pulled, crushed]
elasticity = pasoletu.CorotatedLinearElasticity.new(1.4e5, 0.2)
limits = pasoletu.MaximumStressFailure.new(2e4, 5e3)
passed = pasoletu.pass_with_failure(pasoletu.SnowPlasticity(), limits, elasticity, particles)
print(passed.failed, "failed; phases:", [particle.phase for particle in particles])
