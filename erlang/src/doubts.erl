%% Where a verdict may be wrong, since something works otherwise here than in Erlang: the places of the source at which a
%% difference matters. What differs and cannot be told of a place is in the notes alone.
-module(doubts).

-export([find/3]).

-include("core.hrl").

%%   timers   whether the module makes timers that may be for a name
%%   spawns   whether it makes processes
%%   known    what the variables of the function at hand are, as far as it is plain: map, binary, function, timer, which may be
%%            for a name, or reference; {processes} are those that have a process
-record(scope, {timers, spawns, known = #{}, ledger}).

%% The ledger with the doubts that definitions of the source give, a list of them for each module.
find(Modules, Tables, Ledger) ->
    Codes = [Code || Definitions <- Modules, #definition{code = Code} <- Definitions],
    Scope = #scope{timers = lists:any(fun makes_named_timer/1, Codes),
                   spawns = lists:any(fun(C) -> has(fun is_spawn/1, C) end, Codes), ledger = Ledger},
    (lists:foldl(fun(Definitions, S) -> of_module(Definitions, Tables, S) end, Scope, Modules))#scope.ledger.

of_module(Definitions, Tables, #scope{ledger = Ledger} = Scope) ->
    Functions = functions(Definitions),
    Looked = Scope#scope{ledger = table_order:find(Definitions, Tables, Ledger)},
    lists:foldl(fun(D, S) -> of_function(D, Functions, S) end, Looked, Definitions).

of_function(#definition{code = Code} = D, Functions, Scope) ->
    {_, Done} = core_tree:walk(fun rule/3, {"", 0}, Scope#scope{known = known(D, Functions)}, table_forms:asked(Code)),
    Done.

has(Is, Code) -> core_tree:fold(fun(Node, Found) -> Found orelse Is(Node) end, false, Code).

makes_named_timer(Code) ->
    Processes = timer_kinds:processes(Code),
    has(fun(Node) -> timer_kinds:may_be_named(Node, Processes) end, Code).

is_spawn(#c_call{module = #c_literal{val = M}, name = #c_literal{val = F}}) ->
    M =:= erlang andalso lists:member(F, [spawn, spawn_link, spawn_monitor])
        orelse M =:= gen_server andalso lists:member(F, [start, start_link]);
is_spawn(_) -> false.

%% ---- what a variable is

%% What some call plainly gives counts for a parameter, unless the function asks what it got.
known(#definition{name = Name, code = #c_fun{vars = Vars} = Code}, Functions) ->
    Asked = core_tree:fold(fun is_asked/2, [], Code),
    Taken = [{V, maps:get({takes, Name, I}, Functions)} || {I, #c_var{name = V}} <- numbered(Vars), is_map_key({takes, Name, I}, Functions),
                                                           not lists:member(V, Asked)],
    Before = maps:merge(Functions#{{processes} => timer_kinds:processes(Code)}, maps:from_list(Taken)),
    core_tree:fold(fun(#c_let{vars = [#c_var{name = V}], arg = Value}, Known) -> Known#{V => kind(Value, Known)};
                      (#c_case{arg = Value, clauses = Clauses}, Known) when not is_record(Value, c_values) ->
                           maps:merge(Known, maps:from_list([{V, kind(Value, Known)} || #c_clause{pats = [#c_var{name = V}]} <- Clauses]));
                      (_, Known) -> Known
                   end, Before, Code).

is_asked(#c_call{module = #c_literal{val = erlang}, name = #c_literal{val = F}, args = [#c_var{name = V}]}, Sum)
  when F =:= is_map; F =:= is_tuple; F =:= is_function; F =:= is_pid; F =:= is_reference -> [V | Sum];
is_asked(_, Sum) -> Sum.

%% What functions give, {gives, Name}, and take, {takes, Name, Number}, as far as the source plainly says it. What one gives
%% may come from another, so it is looked at several times; it does not count that it may give what it took.
functions(Definitions) ->
    lists:foldl(fun(_, Functions) -> lists:foldl(fun of_definition/2, Functions, Definitions) end, #{}, [1, 2, 3]).

of_definition(#definition{name = Name, code = #c_fun{body = Body} = Code} = D, Functions) ->
    Known = known(D, Functions),
    Own = known(D, maps:filter(fun(Key, _) -> element(1, Key) =:= gives end, Functions)),
    Given = [{{gives, Name}, K} || End <- ends(Body), K <- [kind(End, Own)], is_handed_on(K)],
    Taken = fun(#c_apply{op = #c_var{name = {_, _} = Called}, args = Args}, Sum) ->
                    [{{takes, Called, I}, K} || {I, A} <- numbered(Args), K <- [kind(A, Known)], is_handed_on(K)] ++ Sum;
               (_, Sum) -> Sum
            end,
    maps:merge(Functions, maps:from_list(Given ++ core_tree:fold(Taken, [], Code))).

%% A reference is not: what else is given may be a timer.
is_handed_on(Kind) -> not lists:member(Kind, [unknown, plain, reference]).

numbered(L) -> lists:zip(lists:seq(1, length(L)), L).

%% The expressions that may be the last of a body.
ends(#c_let{body = Body}) -> ends(Body);
ends(#c_seq{body = Body}) -> ends(Body);
ends(#c_letrec{body = Body}) -> ends(Body);
ends(#c_case{clauses = Clauses}) -> lists:append([ends(Body) || #c_clause{body = Body} <- Clauses]);
ends(#c_try{body = Body, handler = Handler}) -> ends(Body) ++ ends(Handler);
ends(End) -> [End].

kind(#c_var{name = {_, _}}, _) -> function;
kind(#c_var{name = V}, Known) -> maps:get(V, Known, unknown);
kind(#c_fun{}, _) -> function;
kind(#c_map{}, _) -> map;
kind(#c_binary{}, _) -> binary;
kind(#c_literal{val = V}, _) when is_binary(V) -> binary;
kind(#c_literal{val = V}, _) when is_map(V) -> map;
kind(#c_literal{val = V}, _) when is_function(V) -> function;
kind(#c_literal{val = V}, _) when is_integer(V); is_atom(V); V =:= [] -> plain;
kind(#c_apply{op = #c_var{name = {_, _} = Name}}, Known) -> maps:get({gives, Name}, Known, unknown);
kind(#c_cons{hd = Head, tl = Tail}, Known) ->
    case {kind(Head, Known), kind(Tail, Known)} of
        {K, _} when K =:= map; K =:= function -> {list, K};
        {_, {list, K}} -> {list, K};
        _ -> unknown
    end;
kind(#c_call{module = #c_literal{val = maps}, name = #c_literal{val = F}}, _) ->
    case lists:member(F, [filter, from_keys, from_list, map, merge, merge_with, new, put, remove, update, update_with, with, without]) of
        true -> map;
        false -> unknown
    end;
kind(#c_call{module = #c_literal{val = binary}, name = #c_literal{val = F}}, _) ->
    case lists:member(F, [copy, list_to_bin, part, replace]) of
        true -> binary;
        false -> unknown
    end;
kind(#c_call{module = #c_literal{val = erlang}, name = #c_literal{val = F}} = Call, Known) ->
    case timer_kinds:may_be_named(Call, maps:get({processes}, Known, [])) of
        true -> timer;
        false when F =:= make_ref; F =:= monitor; F =:= alias; F =:= start_timer; F =:= send_after -> reference;
        false when F =:= list_to_binary; F =:= iolist_to_binary; F =:= integer_to_binary; F =:= binary_part -> binary;
        false -> unknown
    end;
kind(_, _) -> unknown.

%% ---- where it matters

rule(#c_call{module = #c_literal{val = io}, args = Args} = Node, Place, S) ->
    Seen = [Item || Arg <- Args, Item <- items(Arg), not stands_still(Item)],
    {_, S1} = core_tree:walk(fun rule/3, Place, S, #c_tuple{es = Seen}),
    {done, Node, S1};
rule(#c_seq{arg = Value, body = Body} = Node, Place, S) -> unseen(Node, Value, Body, true, Place, S);
rule(#c_let{vars = [#c_var{name = V}], arg = Value, body = Body} = Node, Place, S) ->
    unseen(Node, Value, Body, core_tree:uses(V, Body) =:= written(V, Body) orelse standing_still:only_seeds(V, Body), Place, S);
rule(#c_call{module = #c_literal{val = M}, name = #c_literal{val = F}, args = Args} = Node, {File, Line}, #scope{known = Known} = S) ->
    Kinds = [kind(A, Known) || A <- Args],
    case doubt({M, F, length(Args)}, Kinds, Args, S) of
        none -> {inside, Node, S};
        Text ->
            Place = io_lib:format("~ts:~w", [filename:basename(File), Line]),
            {inside, Node, S#scope{ledger = ledger:doubt({File, Line}, string:replace(Text, "PLACE", Place), S#scope.ledger)}}
    end;
rule(Node, _, S) -> {inside, Node, S}.

%% The time, or a number of chance, is seen by nobody where it is not used, only written, or makes a seed.
unseen(Node, Value, Body, IsUnseen, Place, S) ->
    case IsUnseen andalso stands_still(Value) of
        true ->
            {_, S1} = core_tree:walk(fun rule/3, Place, S, Body),
            {done, Node, S1};
        false -> {inside, Node, S}
    end.

%% Whether this is the time or a number of chance, and nothing else.
stands_still(#c_call{module = #c_literal{val = M}, name = #c_literal{val = F}, args = Args}) ->
    standing_still:kind(M, F, length(Args)) =/= none andalso lists:all(fun core_tree:is_simple/1, Args);
stands_still(_) -> false.

items(#c_cons{hd = Head, tl = Tail}) -> [Head | items(Tail)];
items(Item) -> [Item].

written(V, Tree) ->
    core_tree:fold(fun(#c_call{module = #c_literal{val = io}} = Call, N) -> N + core_tree:uses(V, Call); (_, N) -> N end, 0, Tree).

%% A timer that a variable does not plainly have may be anywhere that a reference can be; few ask for a pid of one.
doubt({erlang, is_reference, 1}, [Kind], _, #scope{timers = true}) when Kind =:= unknown; Kind =:= timer ->
    "a timer for a name is a pid here, and PLACE asks is_reference/1";
doubt({erlang, is_pid, 1}, [timer], _, _) -> "a timer for a name is a pid here, and PLACE asks is_pid/1 of one";
doubt({ets, info, 1}, _, _, _) -> "ets:info/1 at PLACE gives eight items here, and in Erlang more";
doubt({ets, F, A}, _, Args, #scope{spawns = true}) ->
    case is_several({F, A}, Args) of
        true -> io_lib:format("ets:~ts/~w at PLACE is several steps here, and in Erlang it is one", [F, A]);
        false -> none
    end;
doubt({lists, F, 1}, [{list, Kind}], _, _) when F =:= sort; F =:= usort; F =:= max; F =:= min ->
    io_lib:format("a ~s is a tuple here, and PLACE asks with lists:~s/1 in which order one comes", [Kind, F]);
%% (two binaries are in the order of their bytes)
doubt({erlang, _, 2}, [binary, binary], _, _) -> none;
doubt({erlang, F, Arity} = Call, Kinds, _, _) ->
    case [K || K <- asked(F, Arity, Kinds), K =:= map orelse K =:= binary orelse K =:= function] of
        [Kind | _] when Arity =:= 2, F =/= element ->
            io_lib:format("a ~s is a tuple here, and PLACE asks with ~s in which order one comes", [Kind, F]);
        [Kind | _] -> io_lib:format("a ~s is a tuple here, and PLACE asks ~s/~w of one", [Kind, F, Arity]);
        [] -> doubt_of_time(Call)
    end;
doubt(Call, _, _, _) -> doubt_of_time(Call).

doubt_of_time({M, F, A}) ->
    case standing_still:kind(M, F, A) of
        time -> io_lib:format("time stands still here, and PLACE asks ~s:~s/~w", [M, F, A]);
        chance -> io_lib:format("~s:~s/~w at PLACE is 1 here, and in Erlang it may be another number", [M, F, A]);
        none -> none
    end.

%% Whether a call of ets is several steps between which others may come so that it matters.
is_several({match_delete, 2}, [_, #c_literal{val = '_'}]) -> false;
is_several({F, 2}, _) -> lists:member(F, [match_delete, select_delete, select_replace]);
is_several(_, _) -> false.

%% Those of the arguments of which a call wants to know a tuple or their order.
asked(F, 1, Kinds) when F =:= tuple_size; F =:= tuple_to_list -> Kinds;
asked(element, 2, [_, Kind]) -> [Kind];
asked(setelement, 3, [_, Kind, _]) -> [Kind];
asked(F, 2, Kinds) when F =:= '<'; F =:= '>'; F =:= '=<'; F =:= '>='; F =:= max; F =:= min ->
    case lists:member(plain, Kinds) of
        true -> [];
        false -> Kinds
    end;
asked(_, _, _) -> [].
