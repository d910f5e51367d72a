%% Events that happen together: a turn, with what is delivered after it where signals arrive at once; else each event by itself.
%%   place    which unit of the run it is
%%   events   its events
%%   things   what they come to, {Thing, Access, Event}, as report_touched has it
%%   needs    the places of the units that have to come before it, as far as turns and messages say so
%%   brought  the place of the unit that brought the message which it takes, or none
-record(unit, {place, events, things, needs, brought}).
