%% Timers. One for a process is the explorer's. One for a name is a process, which waits and then sends: it is ended by a
%% message, and its answer. One that never comes, since it is too long (--after-timeout), is a reference, and the process that
%% made it keeps for how long and for whom it is.
-module(timers).
-compile([export_all, nowarn_export_all]).

%% These four are not here where each timer of a program is the explorer's (src/timer_kinds.erl).
'erlang:send_after'(Time, To, Message) -> 'timer begins'(send_after, Time, To, Message).
'erlang:start_timer'(Time, To, Message) -> 'timer begins'(start_timer, Time, To, Message).
'erlang:cancel_timer'(Timer) -> 'timer is ended'(Timer).
'erlang:read_timer'(Timer) -> 'timer is read'(Timer).

%% With options that mean nothing here.
'erlang:send_after'(Time, To, Message, Options) ->
    'timer options'(Options, [{abs, false}]),
    'timer begins'(send_after, Time, To, Message).
'erlang:start_timer'(Time, To, Message, Options) ->
    'timer options'(Options, [{abs, false}]),
    'timer begins'(start_timer, Time, To, Message).
'erlang:read_timer'(Timer, Options) ->
    'timer options'(Options, [{async, false}]),
    'timer is read'(Timer).

%% Where it need not be told what is left, it is not. The last of several options counts.
'erlang:cancel_timer'(Timer, Options) ->
    'timer options'(Options, [{async, false}, {info, true}, {info, false}]),
    Left = 'timer is ended'(Timer),
    case lists:keyfind(info, 1, lists:reverse(Options)) of
        {info, false} -> ok;
        _ -> Left
    end.

'timer options'([Option | Options], Plain) ->
    case lists:member(Option, Plain) of
        true -> 'timer options'(Options, Plain);
        false -> erlang:'a timer with options'(Option)
    end;
'timer options'([], _) -> ok;
'timer options'(Options, _) -> erlang:'a timer with options'(Options).

%% ---- those of the module erlang

'timer begins'(How, Time, To, Message) ->
    case 'timer kind'(Time, To) of
        explored when How =:= send_after -> erlang:send_after(Time, To, Message);
        explored -> erlang:start_timer(Time, To, Message);
        named when How =:= send_after -> spawn(fun() -> 'timer waits'(Time, To, Message) end);
        named -> spawn(fun() -> 'timer waits'(Time, To, {timeout, self(), Message}) end);
        never -> 'timer that never comes'(Time, To)
    end.

%% What is wrong the explorer refuses.
'timer kind'(Time, To) when is_integer(Time), Time >= 0, is_pid(To); is_integer(Time), Time >= 0, is_atom(To) ->
    case Time >= 'least time that never comes'() of
        true -> never;
        false when is_atom(To) -> named;
        false -> explored
    end;
'timer kind'(_, _) -> explored.

%% This one is made of what is asked for (src/timer_kinds.erl). No number is as large as an atom.
'least time that never comes'() -> infinity.

'timer waits'(Time, To, Message) ->
    receive
        {'$cancel', From, Ref} -> From ! {Ref, 0}
    after Time -> catch To ! Message
    end.

'timer that never comes'(Time, To) ->
    Timer = make_ref(),
    put({'timer that never comes', Timer}, {Time, To}),
    Timer.

%% Of one for a name that is not over: 0, and not its time.
'timer is ended'(Timer) when is_pid(Timer) ->
    Ref = monitor(process, Timer),
    Timer ! {'$cancel', self(), Ref},
    receive
        {Ref, Left} -> demonitor(Ref, [flush]), Left;
        {'DOWN', Ref, process, _, _} -> false
    end;
'timer is ended'(Timer) ->
    case erase({'timer that never comes', Timer}) of
        {Time, To} -> 'timer left'(Time, To);
        undefined -> erlang:cancel_timer(Timer)
    end.

'timer is read'(Timer) when is_pid(Timer) ->
    case is_process_alive(Timer) of
        true -> 0;
        false -> false
    end;
'timer is read'(Timer) ->
    case get({'timer that never comes', Timer}) of
        {Time, To} -> 'timer left'(Time, To);
        undefined -> erlang:read_timer(Timer)
    end.

%% One for a process that is gone has ended.
'timer left'(Time, To) when is_pid(To), To =/= self() ->
    case is_process_alive(To) of
        true -> Time;
        false -> false
    end;
'timer left'(Time, _) -> Time.

%% ---- those of the module timer: what cannot be a timer of the explorer is a process, and none where it never comes

-define(PROCESS(Time, Call),
        {ok, case Time >= 'least time that never comes'() of
                 true -> {once, make_ref()};
                 false -> spawn(fun() -> Call end)
             end}).

'timer:send_after'(Time, Message) -> 'timer:send_after'(Time, self(), Message).
'timer:send_after'(0, To, Message) when is_pid(To); is_atom(To) ->
    To ! Message,
    {ok, {instant, make_ref()}};
'timer:send_after'(Time, To, Message) when is_integer(Time), Time >= 0, is_pid(To) ->
    {ok, {send_local, 'timer begins'(send_after, Time, To, Message)}};
'timer:send_after'(Time, To, Message) when is_integer(Time), Time >= 0, is_atom(To) ->
    ?PROCESS(Time, 'timer waits'(Time, To, Message));
'timer:send_after'(_, _, _) -> {error, badarg}.

'timer:send_interval'(Time, Message) -> 'timer:send_interval'(Time, self(), Message).
'timer:send_interval'(Time, To, Message) when is_integer(Time), Time >= 0, is_pid(To); is_integer(Time), Time >= 0, is_atom(To) ->
    ?PROCESS(Time, 'timer repeats'(Time, To, Message));
'timer:send_interval'(_, _, _) -> {error, badarg}.

%% Until it is cancelled, or the process to which it sends is gone.
'timer repeats'(Time, To, Message) ->
    case 'timer pid'(To) of
        undefined -> ok;
        Pid -> 'timer repeats'(monitor(process, Pid), Time, To, Message)
    end.

'timer repeats'(Ref, Time, To, Message) ->
    receive
        {'$cancel', From, Asked} -> From ! {Asked, 0};
        {'DOWN', Ref, process, _, _} -> ok
    after Time ->
        catch To ! Message,
        'timer repeats'(Ref, Time, To, Message)
    end.

'timer pid'(To) when is_pid(To) -> To;
'timer pid'(To) -> whereis(To).

'timer:apply_after'(Time, Module, Function, Arguments)
  when is_integer(Time), Time >= 0, is_atom(Module), is_atom(Function), is_list(Arguments) ->
    ?PROCESS(Time, 'timer applies'(Time, Module, Function, Arguments));
'timer:apply_after'(_, _, _, _) -> {error, badarg}.

'timer applies'(Time, Module, Function, Arguments) ->
    receive
        {'$cancel', From, Ref} -> From ! {Ref, 0}
    after Time -> apply(Module, Function, Arguments)
    end.

'timer:exit_after'(Time, Reason) -> 'timer:exit_after'(Time, self(), Reason).
'timer:exit_after'(Time, To, Reason) when is_integer(Time), Time >= 0 ->
    ?PROCESS(Time, 'timer ends'(Time, To, Reason));
'timer:exit_after'(_, _, _) -> {error, badarg}.

'timer:kill_after'(Time) -> 'timer:exit_after'(Time, self(), kill).
'timer:kill_after'(Time, To) -> 'timer:exit_after'(Time, To, kill).

'timer ends'(Time, To, Reason) ->
    receive
        {'$cancel', From, Ref} -> From ! {Ref, 0}
    after Time -> exit(To, Reason)
    end.

'timer:cancel'({instant, _}) -> {ok, cancel};
'timer:cancel'({once, _}) -> {ok, cancel};
'timer:cancel'({send_local, Timer}) -> 'timer is ended'(Timer), {ok, cancel};
'timer:cancel'(Timer) when is_pid(Timer) -> 'timer is ended'(Timer), {ok, cancel};
'timer:cancel'(_) -> {error, badarg}.

'timer:seconds'(N) -> 1000 * N.
'timer:minutes'(N) -> 60000 * N.
'timer:hours'(N) -> 3600000 * N.
