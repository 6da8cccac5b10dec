"""The workloads that are measured, by subject. Each is a function of a size; it yields the lines of a script, each with the line that the
script prints for it, or None if it prints none. Random choices have a fixed seed."""
