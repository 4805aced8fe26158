# throws the ball 3 metres a second forwards and 4 upwards; the third bounce ends the run
trick.exec_set_software_frame(0.1)
ball.speed.x = 3000000000
ball.speed.y = 4000000000

flight = trick.DRAscii("flight")
flight.set_cycle(0.1)
flight.add_variable("ball.place.x")
flight.add_variable("ball.place.y")
trick.add_data_record_group(flight)

third = trick.new_event("third")
third.set_cycle(0.01)
third.condition(0, "ball.bounces == 3")
third.action(0, "trick.stop()")
third.activate()
trick.add_event(third)
trick.stop(10.0)
