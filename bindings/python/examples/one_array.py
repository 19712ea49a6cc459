"""A pass over particles in one array, without a copy."""
import array
import pasoletu

records = array.array("d", pasoletu.Particle.stretched([0.9, 1.0, 1.0]).floats() * 1000)
passed = pasoletu.pass_records(pasoletu.SnowPlasticity(), records)
print(passed.stored, "stored; sigma of the last:", list(records[-19:-16]))
