# one second of blinking
trick.exec_set_software_frame(0.5)
rec = trick.sim_services.DRAscii("lamp")
rec.set_cycle(0.5)
rec.freq = trick.sim_services.DR_Changes
rec.add_variable("lamp.stats.blinks")
rec.add_variable("lamp.light")
trick.add_data_record_group(rec, trick.DR_Buffer)
trick.stop(1.0)
