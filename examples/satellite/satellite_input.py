# one round of the satellite, in frames of a minute
trick.exec_set_software_frame(60.0)
battery.charge = 300000
battery.camera = True

# the battery needs where the satellite is and how it is turned
trick.exec_add_depends_on_job("battery.fill", 1, "orbit.move", 1)
trick.exec_add_depends_on_job("battery.fill", 1, "attitude.turn", 1)

# the camera is off while the battery is low
low = trick.new_event("low")
full = trick.new_event("full")
trick.add_event(low)
trick.add_event(full)
low.set_cycle(10.0)
low.condition(0, "battery.charge < 200000")
low.action(0, "battery.camera = False; trick.activate_event('full')")
low.activate()
full.set_cycle(10.0)
full.condition(0, "battery.charge > 300000")
full.action(0, "battery.camera = True; trick.activate_event('low')")

# the state at which the satellite first comes into the shadow
dark = trick.new_event("dark")
dark.set_cycle(10.0)
dark.condition(0, "orbit.shadow")
dark.action(0, "trick.checkpoint()")
dark.activate()
trick.add_event(dark)

power = trick.DRAscii("power")
power.set_cycle(400.0)
power.add_variable("orbit.radius")
power.add_variable("orbit.shadow")
power.add_variable("attitude.facing")
power.add_variable("battery.charge")
power.add_variable("battery.camera")
trick.add_data_record_group(power)
trick.stop(5600.0)
