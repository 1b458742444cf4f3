// Stands for the backend's helpers, which the type checker never reaches.
