"""What `./explore` does: an Erlang program is converted, the proved program explores it, and people read what it found.

`main` goes through it from the words to the status. Nothing of this is proved.
"""
