%% What an event does to a thing that another one comes to as well (report_touched), as a clause: "P.3 reads hits".
-module(report_clause).
-export([text/2]).
-include("report.hrl").

text(#event{who = {From, To}, deed = Deed}, Thing) -> arrives(From, To, Deed, Thing);
text(#event{who = Name, deed = Deed}, Thing) -> [Name, " ", does(Deed, Thing)].

arrives(From, To, {brings, _}, _) -> ["a message of ", From, " arrives at ", To];
arrives(From, To, {down, _, _}, _) -> ["the 'DOWN' of ", From, " arrives at ", To];
arrives(From, To, {alias, _, _, _}, _) -> ["a message of ", From, " arrives at ", To];
arrives(_, To, {timer, Timer, _, _}, _) -> ["the message of the timer ", report_term:text(Timer), " arrives at ", To];
arrives(From, To, {exit, _, {ends, _}}, Thing) -> ["the exit signal of ", From, " ends ", To, with(Thing)];
arrives(From, To, {exit, _, {message, _}}, _) -> ["the 'EXIT' of ", From, " arrives at ", To];
arrives(From, To, {exit, _, _}, _) -> ["the exit signal of ", From, " arrives at ", To].

%% What goes with the end of a process.
with({table, Table}) -> [", with its table ", report_term:text(Table)];
with({name, Name}) -> [", with its name ", report_term:text({atom, Name})];
with(_) -> "".

does(timeout, _) -> "times out";
does({receives, _}, _) -> "takes a message";
does({ends, _}, Thing) -> ["ends", with(Thing)];
does(runaway, Thing) -> ["runs away", with(Thing)];
does({call, _, _, _, {ends, _}}, Thing) -> ["ends itself", with(Thing)];
does({call, ets, Function, Arguments, Answer}, _) -> of_table(Function, Arguments, Answer);
does({call, erlang, Function, Arguments, Answer}, _) -> of_process(Function, [report_term:text(One) || One <- Arguments], Answer);
does({call, Module, Function, _, _}, _) -> called(Module, Function).

called(Module, Function) -> ["calls ", report_term:text({atom, Module}), ":", report_term:text({atom, Function})].

of_table(new, _, {ok, Table}) -> ["makes the table ", report_term:text(Table)];
of_table(Function, [Table | _], {refused, _}) -> [called(ets, Function), " of ", report_term:text(Table)];
of_table(give_away, [Table, To, _], _) -> ["gives ", report_term:text(Table), " to ", report_term:text(To)];
of_table(setopts, [Table | _], _) -> ["sets the heir of ", report_term:text(Table)];
of_table(delete, [Table], _) -> ["deletes the table ", report_term:text(Table)];
of_table(update_element, [Table | _], {ok, {atom, false}}) -> ["reads ", report_term:text(Table)];
of_table(Function, [Table | _], _) ->
    Deletes = lists:member(Function, [delete, delete_object, delete_all_objects, take]),
    Writes = lists:member(Function, [insert, insert_new, update_counter, update_element]),
    [if Deletes -> "deletes from "; Writes -> "writes "; true -> "reads " end, report_term:text(Table)].

of_process(Send, [To, _], _) when Send =:= '!'; Send =:= send -> ["sends to ", To];
of_process(exit, [To, _], _) -> ["sends an exit signal to ", To];
of_process(link, [To], _) -> ["links to ", To];
of_process(unlink, [To], _) -> ["unlinks ", To];
of_process(monitor, [_, To | _], _) -> ["watches ", To];
of_process(demonitor, [Reference | _], _) -> ["ends the watch ", Reference];
of_process(process_flag, [_, "true"], _) -> "traps exits";
of_process(process_flag, _, _) -> "traps no exits";
of_process(register, [Name, _], {ok, _}) -> ["registers ", Name];
of_process(register, [Name | _], _) -> ["tries to register ", Name];
of_process(unregister, [Name], _) -> ["frees the name ", Name];
of_process(whereis, [Name], _) -> ["looks up ", Name];
of_process(registered, [], _) -> "looks at all names";
of_process(process_info, [Name, "registered_name"], _) -> ["asks for the name of ", Name];
of_process(process_info, [Name, "message_queue_len"], _) -> ["counts the messages of ", Name];
of_process(is_process_alive, [Name], _) -> ["asks whether ", Name, " lives"];
of_process(unalias, [Alias], {ok, {atom, false}}) -> ["tries to end the alias ", Alias];
of_process(unalias, [Alias], _) -> ["ends the alias ", Alias];
of_process(Start, _, {ok, Timer}) when Start =:= start_timer; Start =:= send_after -> ["starts the timer ", report_term:text(Timer)];
of_process(cancel_timer, [Timer], {ok, {atom, false}}) -> ["tries to cancel the timer ", Timer];
of_process(cancel_timer, [Timer], _) -> ["cancels the timer ", Timer];
of_process(read_timer, [Timer], _) -> ["reads the timer ", Timer];
of_process(Spawn, _, {ok, {pid, Child}}) when Spawn =:= spawn; Spawn =:= spawn_link -> ["spawns ", Child];
of_process(spawn_monitor, _, {ok, {tuple, [{pid, Child}, _]}}) -> ["spawns ", Child];
of_process(Function, _, _) -> called(erlang, Function).
