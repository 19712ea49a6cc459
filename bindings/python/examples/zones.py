"""How many failed in zone 7: outcomes counted by zone, and a particle that is moved."""
import array
import pasoletu

law, limits = pasoletu.SnowPlasticity(), pasoletu.MaximumStressFailure(max_principal_stress=0.1, max_shear_stress=1.0e9)
elasticity = pasoletu.CorotatedLinearElasticity.new(young_modulus=1000.0, poisson_ratio=0.25)
records = array.array("d", [x for s in (1.0, 1.3, 1.3) for x in pasoletu.Particle.stretched([s, 1.0, 1.0]).floats()])
zones = pasoletu.Zones(8, [7, 7, 0])
zones.pass_records(law, records, limits, elasticity)
zones.move(1, 0)
told = zones.tallies[7]
print("zone 7:", told.particles, "particle now; so far", told.stored, "stored,", told.failed, "failed")
