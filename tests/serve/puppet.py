"""A handler that a test plays: it gives its pipes to whoever listens at the socket that its first word names, and ends as its test says."""
import array
import os
import socket
import sys

link = socket.socket(socket.AF_UNIX)
link.connect(sys.argv[1])
link.sendmsg([" ".join([str(os.getpid()), *sys.argv[2:]]).encode()], [(socket.SOL_SOCKET, socket.SCM_RIGHTS, array.array("i", [0, 1]))])
os.close(0)
os.close(1)
link.send(b"\0")  # from now on the test alone has them
status = link.recv(1)
os._exit(status[0] if status else 0)
