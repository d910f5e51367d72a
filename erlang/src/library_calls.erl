%% Calls that are not what they are called on the real machine: what has a form of its own here, what of the library is only
%% nearly right, and functions of other modules as values.
-module(library_calls).

-export([special/4, seed/1, spawned/2, operation/1, notes_of/1, functions_in/1, function/4, computed_function/4]).

-include("core.hrl").

%% ---- forms of their own

%% {Node, Notes}; {call, Node, Notes} where it is a call of the library; or none.
special(erlang, raise, [Class, Reason, Trace], #c_call{anno = Notes}) ->
    {core_tree:evaluated([Trace], raised(Notes, Class, Reason)), [text_of_traces()]};
special(timer, sleep, [Time], #c_call{anno = Notes}) ->
    Sleep = #c_receive{anno = Notes, clauses = [], timeout = Time, action = core_tree:literal(ok)},
    {Sleep, ["timer:sleep/1 may end at once here, as each timeout may"]};
special(io, F, Args, N) when F =:= format; F =:= fwrite; F =:= put_chars; F =:= nl; F =:= write ->
    Texts = [io_lib:format("io:~ts/~w writes nothing here", [F, length(Args)])],
    case output:never_fails(F, Args) of
        true -> {core_tree:evaluated(Args, core_tree:literal(ok)), Texts};
        false -> {call, N#c_call{args = output:shortened(F, Args)}, Texts}
    end;
special(M, F, Args, _) when M =:= logger; M =:= error_logger ->
    case is_logging(M, F, length(Args)) of
        true -> {core_tree:evaluated(Args, core_tree:literal(ok)), ["nothing is logged here"]};
        false -> none
    end;
special(erlang, node, [], _) -> {core_tree:literal(nonode@nohost), []};
special(erlang, node, [Value], _) -> {node_of(Value), []};
special(erlang, process_flag, [#c_literal{val = Flag}, _], N) ->
    case has_no_effect(Flag) of
        true -> {call, N#c_call{module = core_tree:literal('flag without effect'), name = core_tree:literal(set)}, []};
        false -> none
    end;
special(erlang, process_flag, [_, _], N) ->
    {call, N#c_call{module = core_tree:literal('flag that is computed'), name = core_tree:literal(set)}, []};
special(erlang, send, [To, Message, #c_literal{val = Options}], N) when length(Options) >= 0 ->
    case lists:usort(Options) -- [nosuspend, noconnect] of
        [] -> {sent(N, To, Message, ok), []};
        _ -> none
    end;
special(erlang, Start, [Time, To, Message, #c_literal{val = []}], N) when Start =:= start_timer; Start =:= send_after ->
    {call, N#c_call{args = [Time, To, Message]}, []};
special(erlang, send_nosuspend, [To, Message], N) -> {sent(N, To, Message, true), []};
special(erlang, send_nosuspend, [To, Message, #c_literal{val = [noconnect]}], N) -> {sent(N, To, Message, true), []};
special(erlang, Shift, [X, #c_literal{val = Places}], N)
  when is_integer(Places), Places >= 0, Places =< 62, Shift =:= 'bsl' orelse Shift =:= 'bsr' ->
    {shifted(Shift, X, 1 bsl Places, N), []};
special(_, _, _, _) -> none.

%% A number that differs each time, and only makes a seed, is 1.
seed(#c_let{vars = [#c_var{name = V}], body = Body,
            arg = #c_call{module = #c_literal{val = erlang}, name = #c_literal{val = unique_integer}}} = N) ->
    case standing_still:only_seeds(V, Body) of
        true -> N#c_let{arg = core_tree:literal(1)};
        false -> N
    end;
seed(N) -> N.

%% spawn_opt with its options last: which of the three it is they say when it is called.
spawned(Args, #c_call{anno = Notes} = N) ->
    {Begun, [Options]} = lists:split(length(Args) - 1, Args),
    Vars = [core_tree:variable(list_to_atom("begun" ++ integer_to_list(I) ++ "@")) || I <- lists:seq(1, length(Begun))],
    Kind = core_tree:call(Notes, 'spawn options', kind, [Options]),
    Clauses = [core_tree:clause([core_tree:literal(F)], N#c_call{name = core_tree:literal(F), args = Vars})
               || F <- [spawn, spawn_link, spawn_monitor]],
    lists:foldr(fun({V, Value}, Body) -> #c_let{anno = Notes, vars = [V], arg = Value, body = Body} end,
                #c_case{anno = Notes, arg = Kind, clauses = Clauses}, lists:zip(Vars, Begun)).

operation(#c_primop{name = #c_literal{val = build_stacktrace}}) -> {core_tree:literal([]), [text_of_traces()]};
operation(#c_primop{anno = Notes, name = #c_literal{val = raw_raise}, args = [Class, Reason, _]}) -> {raised(Notes, Class, Reason), []};
operation(_) -> none.

text_of_traces() -> "a stack trace is [] here".

%% What only writes into a log.
is_logging(logger, F, A) ->
    lists:member(F, [emergency, alert, critical, error, warning, notice, info, debug]) andalso lists:member(A, [1, 2, 3]) orelse
        lists:member({F, A}, [{log, 2}, {log, 3}, {log, 4}, {macro_log, 3}, {macro_log, 4}, {macro_log, 5},
                              {set_process_metadata, 1}, {update_process_metadata, 1}, {unset_process_metadata, 0}]);
is_logging(error_logger, F, A) ->
    lists:member(F, [error_msg, warning_msg, info_msg, error_report, warning_report, info_report]) andalso lists:member(A, [1, 2]) orelse
        {F, A} =:= {format, 2}.

sent(N, To, Message, Answer) ->
    #c_seq{arg = N#c_call{name = core_tree:literal(send), args = [To, Message]}, body = core_tree:literal(Answer)}.

%% Flags of a process that change nothing of what it does.
has_no_effect(Flag) ->
    lists:member(Flag, [priority, message_queue_data, min_heap_size, min_bin_vheap_size, max_heap_size, fullsweep_after,
                        save_calls, sensitive]).

%% The node of a pid or a reference, in a guard too; anything else fails with badarg.
node_of(Value) ->
    V = core_tree:variable('node@'),
    Has = core_tree:call_erlang([], 'or', [core_tree:call_erlang([], is_pid, [V]), core_tree:call_erlang([], is_reference, [V])]),
    Clauses = [core_tree:clause([core_tree:literal(true)], core_tree:literal(nonode@nohost)),
               core_tree:clause([core_tree:literal(false)], core_tree:call_erlang([], length, [core_tree:literal(none)]))],
    #c_let{vars = [V], arg = Value, body = #c_case{arg = Has, clauses = Clauses}}.

%% A shift by a number of places that is written, in a guard too: a product or a quotient.
shifted('bsl', X, Power, N) -> N#c_call{name = core_tree:literal('*'), args = [X, core_tree:literal(Power)]};
shifted('bsr', X, Power, N) ->
    V = core_tree:variable('shifted@'),
    Rest = core_tree:call_erlang([], 'band', [V, core_tree:literal(Power - 1)]),
    Quotient = N#c_call{name = core_tree:literal('div'), args = [core_tree:call_erlang([], '-', [V, Rest]), core_tree:literal(Power)]},
    #c_let{vars = [V], arg = X, body = Quotient}.

raised(Notes, Class, Reason) ->
    #c_primop{anno = Notes, name = core_tree:literal(raise),
              args = [#c_tuple{es = [core_tree:literal('$trace'), Class]}, Reason]}.

%% ---- functions of the library

%% What is not as on the real machine, and what is one step that need not be one there.
notes_of({ets, F, A}) -> notes_of_tables(F, A);
notes_of({M, _, _}) when M =:= counters; M =:= atomics ->
    ["counters and atomics go with the process that made them here: what asks for them later is not read"];
notes_of({erlang, F, _}) when F =:= send_after; F =:= start_timer ->
    ["a timer may come at once here, as each timeout may", "a timer for a name is a process here, not a reference"];
notes_of({erlang, F, A}) when F =:= cancel_timer; F =:= read_timer ->
    [lists:concat(["erlang:", F, "/", A, " gives the whole time of a timer here, not what is left of it, and 0 of one for a name"])];
notes_of({timer, send_after, A}) -> [lists:concat(["timer:send_after/", A, " may come at once here, as each timeout may"])];
notes_of({timer, F, A}) when F =:= apply_after; F =:= exit_after; F =:= kill_after; F =:= send_interval ->
    [lists:concat(["timer:", F, "/", A, " makes a process here, and may come at once"])];
notes_of({lists, F, 2}) when F =:= sort; F =:= usort -> [lists:concat(["lists:", F, "/2 calls its function on other pairs here"])];
notes_of({M, set, 2}) when M =:= 'flag without effect'; M =:= 'flag that is computed' ->
    ["process_flag/2 gives the flag of a process that never set it here"];
notes_of({erlang, group_leader, 0}) -> ["the group leader is the process itself here"];
notes_of({maps, _, _}) -> [map_forms:text_of_note()];
notes_of({binary, _, _}) -> [binary_forms:text_of_note()];
notes_of({erlang, F, _}) when F =:= list_to_binary; F =:= iolist_to_binary; F =:= integer_to_binary -> [binary_forms:text_of_note()];
notes_of({M, F, A}) ->
    case standing_still:kind(M, F, A) of
        time -> [lists:concat([M, ":", F, "/", A, " is the same each time here"])];
        chance -> [lists:concat([M, ":", F, "/", A, " is 1 here"])];
        none -> []
    end.

notes_of_tables(F, A) when F =:= match_delete; F =:= select_delete ->
    [lists:concat(["ets:", F, "/", A, " is a step that looks and then one for each object here"])];
notes_of_tables(select_replace, 2) -> ["ets:select_replace/2 is a step that looks and then one that writes here"];
notes_of_tables(safe_fixtable, 2) -> ["ets:next/2 and ets:prev/2 find the next key here as if the table were fixed all the time"];
notes_of_tables(whereis, 1) -> ["ets:whereis/1 gives the name here, not a reference"];
notes_of_tables(match_spec_compile, 1) -> ["a compiled match specification is a function here, not a reference"];
notes_of_tables(F, A) ->
    case lists:member({F, A}, [{foldl, 3}, {foldr, 3}, {info, 2}, {match_spec_run, 2}, {is_compiled_ms, 1}, {test_ms, 2}]) of
        true -> [];
        false -> [lists:concat(["ets:", F, "/", A, " is one step here"])]
    end.

%% ---- functions of other modules as values

%% The node for a literal in which a function of another module is a value, or none.
functions_in(#c_literal{anno = Notes, val = V} = N) ->
    case has_function(V) of
        true when is_function(V) ->
            [{_, M}, {_, F}, {_, A}] = [erlang:fun_info(V, What) || What <- [module, name, arity]],
            function(Notes, core_tree:literal(M), core_tree:literal(F), A);
        true -> spelled_out(N);
        false -> none
    end.

%% fun M:F/A, where M or F may be computed: what is no atom is refused here.
computed_function(Notes, Module, Name, Arity) ->
    Vars = [M, F] = [core_tree:variable('module@'), core_tree:variable('function@')],
    AreAtoms = core_tree:call_erlang([], 'and', [core_tree:call_erlang([], is_atom, [V]) || V <- Vars]),
    #c_case{anno = Notes, arg = #c_values{es = [Module, Name]},
            clauses = [core_tree:clause(Vars, AreAtoms, function(Notes, M, F, Arity)),
                       core_tree:clause([core_tree:variable('other1@'), core_tree:variable('other2@')],
                                        core_tree:raise_error(Notes, core_tree:literal(badarg)))]}.

%% fun M:F/A, as a function that calls it, and what it is in its notes where that is known.
function(Notes, Module, Name, Arity) ->
    Vars = [core_tree:variable(list_to_atom("argument@" ++ integer_to_list(I))) || I <- lists:seq(1, Arity)],
    #c_fun{anno = external(Module, Name, Arity) ++ Notes, vars = Vars,
           body = #c_call{anno = Notes, module = Module, name = Name, args = Vars}}.

external(#c_literal{val = M}, #c_literal{val = F}, A) -> [{external, {M, F, A}}];
external(_, _, _) -> [].

has_function(V) when is_function(V) -> true;
has_function([H | T]) -> has_function(H) orelse has_function(T);
has_function(V) when is_tuple(V) -> lists:any(fun has_function/1, tuple_to_list(V));
has_function(V) when is_map(V) -> has_function(maps:to_list(V));
has_function(_) -> false.

spelled_out(#c_literal{val = [H | T]} = N) -> #c_cons{anno = N#c_literal.anno, hd = N#c_literal{val = H}, tl = N#c_literal{val = T}};
spelled_out(#c_literal{val = V} = N) when is_tuple(V) -> #c_tuple{anno = N#c_literal.anno, es = [N#c_literal{val = X} || X <- tuple_to_list(V)]};
spelled_out(#c_literal{anno = Notes, val = V} = N) ->
    lists:foldl(fun({K, X}, Map) -> core_tree:call(Notes, maps, put, [N#c_literal{val = K}, N#c_literal{val = X}, Map]) end,
                N#c_literal{val = #{}}, lists:sort(maps:to_list(V))).
