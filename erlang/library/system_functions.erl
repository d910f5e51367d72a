%% What lives as long as the system does: here it is in a table of the first process, which makes it before it begins
%% (src/linker.erl), and goes with it. Each call is one step, and stops where that process has ended.
-module(system_functions).
-compile([export_all, nowarn_export_all]).

'system table'() -> 'kept by the system'.

'system begins'() ->
    case ets:info('system table'(), type) of
        undefined ->
            ets:new('system table'(), [named_table, public]),
            ets:insert('system table'(), {unique, 0});
        _ -> ok
    end.

'persistent_term:put'(Key, Value) -> 'system asked'(fun(T) -> ets:insert(T, {{term, Key}, Value}) end), ok.

'persistent_term:get'(Key) ->
    case 'system asked'(fun(T) -> ets:lookup(T, {term, Key}) end) of
        [{_, Value}] -> Value;
        [] -> error(badarg)
    end.

'persistent_term:get'(Key, Default) ->
    case 'system asked'(fun(T) -> ets:lookup(T, {term, Key}) end) of
        [{_, Value}] -> Value;
        [] -> Default
    end.

'persistent_term:get'() -> [{Key, Value} || {{term, Key}, Value} <- 'system asked'(fun(T) -> ets:tab2list(T) end)].

'persistent_term:erase'(Key) -> 'system asked'(fun(T) -> ets:take(T, {term, Key}) end) =/= [].

%% A number that rises with each call, whoever makes it.
'erlang:unique_integer'() -> 'system asked'(fun(T) -> ets:update_counter(T, unique, 1) end).
'erlang:unique_integer'(Options) ->
    case Options -- [positive, monotonic] of
        [] -> 'erlang:unique_integer'();
        _ -> error(badarg)
    end.

'system asked'(Ask) ->
    try Ask('system table'())
    catch error:badarg -> erlang:'what the system keeps, after the first process has ended'(Ask)
    end.
