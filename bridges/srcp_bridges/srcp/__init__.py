"""For all programs that speak SRCP: sessions at the server, a mirror of the registry, driving, and stopping."""
