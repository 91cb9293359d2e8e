"""What holds for all tests."""
import signal

# a shell that starts the tests in the background lets them ignore interrupts, and so the programs that they start
signal.signal(signal.SIGINT, signal.default_int_handler)
