"""What stands around the planner: the front, importers, what shows, carries out and draws its plans."""
