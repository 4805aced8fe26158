# tank run
trick.exec_set_software_frame(1.0)
drg = trick.sim_services.DRAscii("plant")
drg.thisown = 0
drg.set_cycle(1.0)
drg.freq = trick.sim_services.DR_Always
drg.add_variable("plant.tank.level")
drg.add_variable("plant.phase")
trick.add_data_record_group(drg, trick.DR_Buffer)
drg.enable()
trick.stop(2.0)
