# the tank of a run that waits: frozen at its start, and again after each step that a client asks for
trick.exec_set_software_frame(0.5)
step = trick.new_event("step")
step.set_cycle(0.5)
step.condition(0, "1")
step.action(0, "trick.freeze()")
trick.add_event(step)
trick.freeze()
trick.stop(10.0)
