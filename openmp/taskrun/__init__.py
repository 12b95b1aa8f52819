"""From a recorded run of an OpenMP program to a session, and from its replies to an answer."""
