%% What an event has to do with others: the things that it reads or writes, as docs/PROCESSES.md has them ("What each line of a
%% transcript reads and writes"), as far as two processes may come to one of them in either order.
-module(report_touched).
-export([things/2, meet/2]).
-include("report.hrl").

%% The things of an event, {Thing, read} or {Thing, write}, in the world before it:
%%   {row, Table, Key}   the objects under a key, or under any
%%   {table, Table}      whether it is there, and whose it is
%%   {name, Name}        who holds it, or who holds any
%%   {mail, Process}     what came into its mailbox
%%   {taken, Process}    what was taken from its mailbox
%%   {trap, Process}     whether it traps exits
%%   {bond, Which}       a link of two processes, or a watch, an alias or a timer, by its reference
%%   {life, Process}     whether it lives
things(#event{who = {From, To}, deed = Deed}, World) -> delivered(From, To, Deed, World);
things(#event{who = Name, deed = Deed}, World) -> [{{life, Name}, read} | done(Name, Deed, World)].

delivered(_, To, {brings, _}, _) -> [{{mail, To}, write}];
delivered(_, To, {down, Reference, Fate}, _) -> [{{bond, Reference}, write} | arrived(To, Fate)];
delivered(_, To, {alias, {ref, Name} = Reference, _, Fate}, World) ->
    %% (where a message ends the alias, no other one comes in)
    [{{bond, Reference}, case report_world:alias_end(Name, World) of reply -> write; _ -> read end} | arrived(To, Fate)];
delivered(_, To, {timer, Reference, _, Fate}, _) -> [{{bond, Reference}, write} | arrived(To, Fate)];
delivered(From, To, {exit, _, {ends, _}}, World) -> [{{trap, To}, read}, {{bond, bond(From, To)}, read} | ended(To, World)];
delivered(From, To, {exit, _, Fate}, _) -> [{{trap, To}, read}, {{bond, bond(From, To)}, read} | arrived(To, Fate)].

arrived(To, {message, _}) -> [{{mail, To}, write}];
arrived(_, _) -> [].

bond(One, Other) -> {min(One, Other), max(One, Other)}.

%% The end of a process.
ended(Name, World) ->
    [{{life, Name}, write}] ++ [{{name, Held}, write} || Held <- report_world:names(Name, World)]
        ++ [{{table, Table}, write} || Table <- report_world:tables(Name, World)].

done(Name, timeout, _) -> [{{mail, Name}, read}];
done(Name, {receives, _}, _) -> [{{taken, Name}, write}];
done(Name, {ends, _}, World) -> ended(Name, World);
done(Name, runaway, World) -> ended(Name, World);
done(Name, {call, _, _, _, {ends, _}}, World) -> ended(Name, World);
done(_, {call, ets, Function, Arguments, Answer}, World) -> of_table(Function, Arguments, Answer, World);
done(Name, {call, erlang, Function, Arguments, Answer}, World) -> of_process(Function, Arguments, Answer, Name, World);
done(_, _, _) -> [].

%% ---- calls of processes

of_process(Send, [{pid, To}, _], _, Name, World) when To =/= Name, Send =:= '!' orelse Send =:= send ->
    %% (a message for a process that has ended might have arrived before)
    [{{life, To}, read} | [{{mail, To}, write} || report_world:is_gone(To, World)]];
of_process(Send, [{ref, Name} = Reference, _], _, _, World) when Send =:= '!'; Send =:= send ->
    [{{bond, Reference}, read} | by_alias(report_world:alias_end(Name, World), report_world:maker(Name), World)];
of_process(exit, [{pid, To}, _], _, _, _) -> [{{life, To}, read}];
of_process(Send, [{atom, Held}, _], _, _, World) when Send =:= '!'; Send =:= send -> of_holder(Held, World);
of_process(Send, [{tuple, [{atom, Held}, {atom, nonode@nohost}]}, _], _, _, World) when Send =:= '!'; Send =:= send -> of_holder(Held, World);
of_process(link, [{pid, To}], _, Name, _) -> [{{life, To}, read}, {{bond, bond(Name, To)}, write}];
of_process(unlink, [{pid, To}], _, Name, _) -> [{{bond, bond(Name, To)}, write}];
of_process(monitor, [_, {pid, To} | _], _, _, _) -> [{{life, To}, read}];
of_process(monitor, [_, {atom, Held} | _], _, _, World) -> of_holder(Held, World);
of_process(monitor, [_, {tuple, [{atom, Held}, {atom, nonode@nohost}]} | _], _, _, World) -> of_holder(Held, World);
of_process(demonitor, [Reference | _], _, _, _) -> [{{bond, Reference}, write}];
of_process(process_flag, _, _, Name, _) -> [{{trap, Name}, write}];
of_process(register, [{atom, Held}, {pid, To}], Answer, _, _) -> [{{name, Held}, access(Answer)}, {{life, To}, read}];
of_process(unregister, [{atom, Held}], Answer, _, _) -> [{{name, Held}, access(Answer)}];
of_process(whereis, [{atom, Held}], _, _, _) -> [{{name, Held}, read}];
of_process(is_process_alive, [{pid, To}], _, _, _) -> [{{life, To}, read}];
of_process(process_info, [{pid, To}, {atom, message_queue_len}], _, _, _) -> [{{life, To}, read}, {{mail, To}, read}, {{taken, To}, read}];
of_process(process_info, [{pid, To}, {atom, registered_name}], Answer, _, World) ->
    [{{life, To}, read} | [{{name, Held}, read} || Held <- report_world:names(To, World), Answer =/= badarg]];
of_process(registered, [], _, _, _) -> [{{name, any}, read}];
of_process(unalias, [Reference], _, _, _) -> [{{bond, Reference}, write}];
of_process(Start, [_, {pid, To}, _], _, _, _) when Start =:= start_timer; Start =:= send_after -> [{{life, To}, read}];
of_process(cancel_timer, [Reference], _, _, _) -> [{{bond, Reference}, write}];
of_process(read_timer, [Reference], _, _, _) -> [{{bond, Reference}, read}];
of_process(_, _, _, _, _) -> [].

%% What a message to a reference has to do with the process whose alias it is, or was. Where the alias or the process has ended, the
%% message might have arrived before.
by_alias(none, _, _) -> [];
by_alias(How, To, World) -> [{{life, To}, read} | [{{mail, To}, write} || How =:= ended orelse report_world:is_gone(To, World)]].
of_holder(Held, World) -> [{{name, Held}, read} | [{{life, To}, read} || To <- [report_world:holder(Held, World)], To =/= none]].

%% A call that is refused changes nothing.
access({ok, _}) -> write;
access(_) -> read.

%% ---- calls of tables

of_table(new, _, {ok, Table}, _) -> [{{table, Table}, write}];
of_table(new, [Table, _], _, _) -> [{{table, Table}, read}];
of_table(_, [Table | _], {refused, _}, _) -> [{{table, Table}, read}];
of_table(update_element, [Table, Key, _], {ok, {atom, false}}, _) -> [{{table, Table}, read}, {{row, Table, Key}, read}];
of_table(give_away, [Table, {pid, To}, _], _, _) -> [{{table, Table}, write}, {{life, To}, read}];
of_table(setopts, [Table | _], _, _) -> [{{table, Table}, write}];
of_table(delete, [Table], _, _) -> [{{table, Table}, write}, {{row, Table, any}, write}];
of_table(Function, [Table | Arguments], _, World) ->
    {Access, Keys} = rows(Function, Arguments, report_world:key_place(Table, World)),
    [{{table, Table}, read} | [{{row, Table, Key}, Access} || Key <- Keys]].

rows(Function, [Key | _], _) when Function =:= lookup; Function =:= member; Function =:= lookup_element -> {read, [Key]};
rows(Function, [Key | _], _) when Function =:= delete; Function =:= take; Function =:= update_counter; Function =:= update_element ->
    {write, [Key]};
rows(Function, [Objects], Place) when Function =:= insert; Function =:= insert_new; Function =:= delete_object ->
    {write, keys(Objects, Place)};
rows(delete_all_objects, _, _) -> {write, [any]};
rows(_, _, _) -> {read, [any]}.

keys({list, Objects, _}, Place) -> lists:append([keys(Object, Place) || Object <- Objects]);
keys({tuple, Parts}, Place) when length(Parts) >= Place -> [lists:nth(Place, Parts)];
keys(_, _) -> [].

%% ---- two events

%% What two lists of things, {Thing, Access, Event}, have in common where one of the two accesses writes: {Thing, Event, Other}, those that
%% say most first.
meet(Things, Others) ->
    Met = [{rank(Thing), {Thing, Event, OtherEvent}} || {Thing, Access, Event} <- Things, {Other, OtherAccess, OtherEvent} <- Others,
                                                        is_same(Thing, Other), lists:member(write, [Access, OtherAccess])],
    [Meeting || {_, Meeting} <- lists:keysort(1, Met)].

is_same({row, Table, Key}, {row, Table, Other}) -> Key =:= Other orelse Key =:= any orelse Other =:= any;
is_same({name, Name}, {name, Other}) -> Name =:= Other orelse Name =:= any orelse Other =:= any;
is_same(Thing, Other) -> Thing =:= Other.

rank(Thing) -> length(lists:takewhile(fun(Kind) -> Kind =/= element(1, Thing) end, [row, table, name, mail, taken, trap, bond, life])).
