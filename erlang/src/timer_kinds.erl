%% Which timers a program makes, as far as its source says it. Those for processes are the explorer's. Where one may be for a
%% name, or so long that it never comes (--after-timeout), functions of the library make timers, end them and read them
%% (library/timers.erl).
-module(timer_kinds).

-export([of_source/2, library/3, processes/1, may_be_named/2]).

-include("core.hrl").

-define(NEVER, {'least time that never comes', 0}).

%% explored, where all that these definitions make are the explorer's, or else several. From Limit on none comes; it is none
%% where nothing is asked.
of_source(Definitions, Limit) ->
    Codes = [Code || #definition{code = Code} <- Definitions],
    case is_computed(Codes) orelse lists:any(fun(Code) -> makes_several(Code, Limit) end, Codes) of
        true -> several;
        false -> explored
    end.

%% The library, without its own functions where timers are those of the explorer, and with that limit.
library(Kinds, Limit, Library) ->
    Own = [{'erlang:start_timer', 3}, {'erlang:send_after', 3}, {'erlang:cancel_timer', 1}, {'erlang:read_timer', 1}],
    Never = #c_fun{vars = [], body = core_tree:literal(case Limit of none -> infinity; _ -> Limit end)},
    maps:merge(maps:without([Name || Kinds =:= explored, Name <- Own], Library), packed_functions:pack(#{?NEVER => Never})).

%% Whether a start is called by names that are computed, as far as their atoms are there, or is a value.
is_computed(Codes) ->
    Atoms = core_tree:atoms_as_values(Codes),
    is_map_key(erlang, Atoms) andalso (is_map_key(start_timer, Atoms) orelse is_map_key(send_after, Atoms))
        orelse lists:any(fun(Code) -> core_tree:fold(fun(Node, Found) -> Found orelse is_value(Node) end, false, Code) end, Codes).

is_value(#c_literal{val = V}) -> has_start(V);
is_value(_) -> false.

has_start(V) when is_function(V) ->
    [{_, M}, {_, F}] = [erlang:fun_info(V, What) || What <- [module, name]],
    M =:= erlang andalso is_start(F);
has_start([H | T]) -> has_start(H) orelse has_start(T);
has_start(V) when is_tuple(V) -> has_start(tuple_to_list(V));
has_start(V) when is_map(V) -> has_start(maps:to_list(V));
has_start(_) -> false.

is_start(F) -> F =:= start_timer orelse F =:= send_after.

makes_several(Code, Limit) ->
    Processes = processes(Code),
    core_tree:fold(fun(Node, Found) -> Found orelse is_one(Node) andalso (Limit =/= none orelse may_be_named(Node, Processes)) end, false, Code).

is_one(#c_call{module = #c_literal{val = erlang}, name = #c_literal{val = F}, args = Args}) ->
    is_start(F) andalso lists:member(length(Args), [3, 4]);
is_one(_) -> false.

%% ---- what a timer is for

%% Whether a node makes a timer which may be for a name; Processes are the variables that have a process there.
may_be_named(#c_call{args = [_, To | _]} = Node, Processes) -> is_one(Node) andalso not is_process(To, Processes);
may_be_named(_, _) -> false.

is_process(#c_var{name = V}, Processes) -> lists:member(V, Processes);
is_process(Node, _) -> is_made(Node).

%% The variables of a function that plainly have a process, each time that they are bound.
processes(Code) ->
    Made = core_tree:fold(fun(#c_let{vars = [#c_var{name = V}], arg = Value}, Sum) -> [V || is_made(Value)] ++ Sum;
                             (_, Sum) -> Sum
                          end, [], Code),
    lists:usort(Made) -- (core_tree:bound_variables(Code) -- Made).

%% The process itself, or one that is begun.
is_made(#c_call{module = #c_literal{val = erlang}, name = #c_literal{val = F}}) -> lists:member(F, [self, spawn, spawn_link]);
is_made(_) -> false.
