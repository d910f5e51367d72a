%% What happened in one step, as a line of a transcript says it.
%%   who    the name of the process whose turn it was, or {From, To} of a delivery
%%   deed   {call, Module, Function, Arguments, Answer}, where an answer is {ok, Term}, {refused, Text} or {ends, Term};
%%          {receives, Term}; timeout; {ends, Term}; runaway;
%%          {brings, Term}; {exit, Reason, Fate}; {down, Reference, Fate};
%%          {alias, Reference, Term, Fate} of a message by that alias, {timer, Reference, Term, Fate} of that timer; where a fate is
%%          {ends, Term}, ignored, dropped, or {message, Term}
-record(event, {number, who, deed}).
