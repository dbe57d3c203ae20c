"""What stands before the proved program for people: it finds out what a file is, hands the stream in it to mig_tool, and
says in words what the program answered. Nothing here judges a stream, and nothing here is proved; tests/mig tests it."""
import os
import sys

if sys.version_info < (3, 6):
    sys.stderr.write('%s: python3 of 3.6 or later is needed, and this is %d.%d\n' % ((os.path.basename(sys.argv[0]),) + sys.version_info[:2]))
    sys.exit(125)
