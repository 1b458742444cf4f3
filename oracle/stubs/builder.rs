// Stands for the backend's function builder, which the type checker never reaches.
