# twenty seconds of a room, if it does not get too cold

# both events are added before their actions name them
cold = trick.new_event("cold")
warm = trick.new_event("warm")
trick.add_event(cold)
trick.add_event(warm)
cold.condition(0, "room.temperature < 190")
cold.action(0, "heater.on = True")
cold.action(1, "trick.activate_event('warm')")
cold.activate()
warm.condition(0, "room.temperature > 210")
warm.action(0, "heater.on = False")
warm.action(1, "trick.activate_event('cold')")

# far too cold: keep the state, and stop the time
alarm = trick.new_event("alarm")
alarm.condition(0, "room.temperature < 120")
alarm.action(0, "trick.checkpoint()")
alarm.action(1, "trick.freeze()")
alarm.activate()
trick.add_event(alarm)

# a checkpoint while all is well, and one when somebody opens the window
trick.add_read(5.0, "trick.checkpoint()")
trick.add_read(11.0, "room.window = True; trick.checkpoint()")

record = trick.DRAscii("room")
record.set_cycle(1.0)
record.add_variable("room.temperature")
record.add_variable("heater.on")
trick.add_data_record_group(record)
trick.stop(20.0)
