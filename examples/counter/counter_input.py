# Stop after 3 seconds: the jobs of that tic still run.
trick.stop(3.0)
