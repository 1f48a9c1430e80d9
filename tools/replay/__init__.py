"""The run of a job, done again: what tools/draw draws.

job.py reads a job's text, trace.py what its nodes wrote, datagram.py the bytes of a message. node.py is a node: its requests,
slots and ticks, with its cells, segment and handlers in client.py, and transfers.py, plans.py, atomics.py and barrier.py beside it;
scripts.py tries the steps of its threads. world.py runs a schedule, and launch.py the turns of traces: both give the rows of a
picture, and the lines that the program writes for the run; steps.py gives the rows of a launch without traces. arrows.py finds
which delivery is of which sending, and picture.py draws, with svg.py.
drills.py makes jobs from a number, for tools/drill-job: it runs each as it makes it.

All follows docs/FORMATS.md. Nothing of it is proved, and where an output isn't the one that it gets, nothing is drawn.
"""
