%% The calls that the explorer answers, and what of their arguments has to be so
%% that it answers them as the manuals say.
-module(known_calls).

-export([is_known/3, is_request/3, is_of_dictionary/3, is_plain/3, objection/3, unread/1]).

-include("core.hrl").

%% What a process answers by itself, or the world for it.
is_known(M, F, A) -> is_pure(M, F, A) orelse is_of_dictionary(M, F, A) orelse is_request(M, F, A).

is_pure(erlang, self, 0) -> true;
is_pure(erlang, F, 1) ->
    lists:member(F, ['+', '-', abs, 'bnot', 'not', is_integer, is_number, is_atom, is_boolean, is_tuple,
                     is_list, is_pid, is_reference, is_float, is_binary, tuple_size, hd, tl, length,
                     tuple_to_list, list_to_tuple, error, exit, throw]);
is_pure(erlang, F, 2) ->
    lists:member(F, ['+', '-', '*', 'div', 'rem', 'band', 'bor', 'bxor', '==', '/=', '=:=', '=/=', '<', '=<',
                     '>', '>=', 'and', 'or', 'xor', element, '++', '--', error]);
is_pure(erlang, F, 3) -> lists:member(F, [is_record, setelement]);
is_pure(lists, F, A) -> lists:member({F, A}, [{reverse, 1}, {member, 2}, {append, 2}]);
is_pure(_, _, _) -> false.

%% Those of what a process keeps for itself, which no guard may make.
is_of_dictionary(erlang, F, A) ->
    lists:member({F, A}, [{put, 2}, {get, 0}, {get, 1}, {get_keys, 0}, {get_keys, 1}, {erase, 0}, {erase, 1}]);
is_of_dictionary(_, _, _) -> false.

is_request(erlang, F, A) ->
    lists:member({F, A}, [{spawn, 3}, {spawn_link, 3}, {spawn_monitor, 3}, {'!', 2}, {send, 2}, {exit, 2}, {link, 1},
                          {unlink, 1}, {monitor, 2}, {demonitor, 1}, {demonitor, 2}, {process_flag, 2}, {register, 2},
                          {unregister, 1}, {whereis, 1}, {is_process_alive, 1}, {make_ref, 0}, {monitor, 3}, {alias, 0},
                          {alias, 1}, {unalias, 1}, {start_timer, 3}, {send_after, 3}, {cancel_timer, 1}, {read_timer, 1},
                          {registered, 0}, {process_info, 2}]);
is_request(ets, F, A) ->
    lists:member({F, A}, [{new, 2}, {lookup, 2}, {member, 2}, {lookup_element, 3}, {first, 1}, {last, 1},
                          {next, 2}, {prev, 2}, {tab2list, 1}, {insert, 2}, {insert_new, 2}, {delete, 1},
                          {delete, 2}, {delete_object, 2}, {delete_all_objects, 1}, {take, 2},
                          {update_counter, 3}, {update_counter, 4}, {update_element, 3}, {give_away, 3}, {setopts, 2},
                          {info, 1}, {info, 2}]);
is_request(_, _, _) -> false.

%% Whether a call for which the library has a function too is left as it is: one that the explorer answers in this form, and
%% in the library each that it answers.
is_plain(library, {M, F, A}, _) -> is_request(M, F, A);
is_plain(_, {ets, info, 2}, [_, Item]) -> is_written(Item);
is_plain(_, {erlang, process_info, 2}, [_, #c_literal{val = Item}]) -> is_of_process(Item);
is_plain(_, _, _) -> false.

%% What is wrong with the arguments of a call: {refuse, What, Text}, where Text says in a sentence that What is not
%% read; {note, Text}; or none.
objection(Own, {erlang, Spawn, 3}, [Module, Function, _]) when Spawn =:= spawn; Spawn =:= spawn_link; Spawn =:= spawn_monitor ->
    begins(Own, Module, Function);
objection(_, {erlang, process_flag, 2}, [#c_literal{val = trap_exit}, _]) -> none;
objection(_, {erlang, process_flag, 2}, [#c_literal{val = Flag}, _]) ->
    unknown(io_lib:format("process_flag(~tw, ..)", [Flag]));
objection(_, {erlang, process_flag, 2}, _) -> unknown("process_flag/2 of a computed flag");
objection(_, {erlang, monitor, 2}, [Kind, Watched]) -> watch("monitor/2", Kind, Watched);
objection(_, {erlang, monitor, 3}, [Kind, Watched, #c_literal{val = Options}]) ->
    case are_of_alias(Options) of
        true -> watch("monitor/3", Kind, Watched);
        false -> unknown(io_lib:format("monitor/3 with ~tw", [Options]))
    end;
objection(_, {erlang, monitor, 3}, _) -> unknown("monitor/3 with computed options");
objection(_, {erlang, demonitor, 2}, [_, #c_literal{val = Options}]) when Options =:= []; Options =:= [flush] -> none;
objection(_, {erlang, demonitor, 2}, [_, #c_literal{val = Options}]) ->
    unknown(io_lib:format("demonitor/2 with ~tw", [Options]));
objection(_, {erlang, demonitor, 2}, _) -> unknown("demonitor/2 with computed options");
objection(_, {erlang, Start, 3}, _) when Start =:= start_timer; Start =:= send_after ->
    {note, "a timer may come at once here, as each timeout may"};
objection(_, {erlang, F, 1}, _) when F =:= cancel_timer; F =:= read_timer ->
    {note, io_lib:format("erlang:~ts/1 gives the whole time of a timer here, not what is left of it", [F])};
objection(_, {ets, info, 1}, _) -> {note, "ets:info/1 gives only the items that are known here"};
objection(_, {ets, info, 2}, [_, #c_literal{val = Item}]) ->
    case lists:member(Item, [name, owner, heir, size, type, protection, keypos, named_table]) of
        true -> none;
        false -> unknown(io_lib:format("ets:info(.., ~tw)", [Item]))
    end;
objection(_, {erlang, registered, 0}, _) ->
    {note, "erlang:registered/0 has the names of the program alone here, in the order of terms"};
objection(_, {erlang, F, A}, _) when F =:= get_keys; A =:= 0, F =:= get orelse F =:= erase ->
    {note, io_lib:format("the list of erlang:~ts/~w is in the order of its keys here", [F, A])};
objection(_, _, _) -> none.

%% A watch of what is meant by its kind.
watch(_, #c_literal{val = process}, _) -> none;
watch(_, #c_literal{val = Kind}, _) -> unknown(io_lib:format("monitor(~tw, ..)", [Kind]));
watch(Call, _, _) -> unknown(Call ++ " of a computed kind").

%% What process_info/2 tells.
is_of_process(Item) -> lists:member(Item, [registered_name, message_queue_len]).

%% Whether options of monitor/3 only say how an alias ends.
are_of_alias([{alias, How} | Options]) -> lists:member(How, [explicit_unalias, demonitor, reply_demonitor]) andalso are_of_alias(Options);
are_of_alias(Options) -> Options =:= [].

%% Whether it is known which item is asked for, or that it is none, before it is computed.
is_written(#c_literal{}) -> true;
is_written(#c_tuple{}) -> true;
is_written(#c_cons{}) -> true;
is_written(_) -> false.

begins(Own, #c_literal{val = Own}, _) -> none;
begins(_, #c_literal{val = M}, #c_literal{val = F}) ->
    unread(io_lib:format("a process that begins in ~ts:~ts", [atom_to_list(M), atom_to_list(F)]));
begins(_, #c_literal{val = M}, _) ->
    unread(io_lib:format("a process that begins in the module ~ts", [atom_to_list(M)]));
begins(Own, _, _) ->
    {note, io_lib:format("where the module of a spawn is computed, only functions of ~ts begin", [atom_to_list(Own)])}.

unknown(What) -> {refuse, What, [What, " is not known here"]}.

unread(What) -> {refuse, What, [What, " is not read"]}.
