# five seconds of the plant
pump.on = True
trick.TMM_declare_var_s("long highest")
trick.TMM_declare_var_s("bool alarms[2]")
highest = 128

# the tank waits for what flows in and out
trick.exec_add_depends_on_job("tank.mix", 1, "pump.run", 1)
trick.exec_add_depends_on_job("tank.mix", 1, "valve.run", 1)

# the gauge takes what it reads every two seconds, and shows its result two seconds later
trick.exec_set_thread_process_type(3, trick.PROCESS_TYPE_AMF_CHILD)
trick.exec_set_thread_amf_cycle_time(3, 2.0)

levels = trick.DRAscii("levels")
levels.set_cycle(0.5)
levels.freq = trick.DR_Changes
levels.add_variable("tank.level")
levels.add_variable("pump.rate")
levels.add_variable("valve.rate")
trick.add_data_record_group(levels)

shown = trick.DRAscii("gauge")
shown.set_cycle(1.0)
shown.add_variable("gauge.samples")
shown.add_variable("gauge.mean")
trick.add_data_record_group(shown)

# the first time above the highest level: an alarm, and a checkpoint of that turn
high = trick.new_event("high")
high.set_cycle(0.5)
high.condition(0, "tank.level > highest")
high.action(0, "alarms[1] = True")
high.action(1, "trick.checkpoint()")
high.activate()
trick.add_event(high)

trick.add_read(4.0, "highest = 150; trick.exec_set_job_onoff('valve.run', 1, False)")
trick.stop(5.0)
