%% One row of a chart or a drawing.
%%   column  the process whose turn it was, or the sender
%%   other   the receiver of a delivery, or the process that was spawned
%%   kind    turn, arrow or spawn
%%   sent    of a delivery the number of the event that it comes from, or none
%%   mark    table, refused, taken, ends, waits, message or plain
%%   last    whether it is what the finding is about
-record(row, {number, column, other, kind, text, mark, place, sent = none, last = false}).
