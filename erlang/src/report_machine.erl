%% Plays a transcript on the machine: each process alone, with the answers and messages that the transcript gives it.
%%
%% So each request gets the line of the source that makes it, and each process that did not end the line where it
%% is. The machine is also a second witness: where it asks otherwise than the transcript says, that is reported.
-module(report_machine).
-export([load/1, play/2]).
-export([enters/1, leaves/0, runs/2, ask/4, wait/3, not_taken/0, keeps/2, applied/2, built/2, caught/2, raised/2]).
-include("report.hrl").

-record(played, {
    lines = #{},        % the place of each event, by its number
    stands = #{},       % the place where each process is that did not end, by its name
    limits = #{},       % the limit of the explorer that an event comes from, by its number: {Limit, Place}
    times = #{},        % how many milliseconds a receive waited before its timeout, by the number of that event
    timed = [],         % the numbers of the events that take a message of a receive with a time
    differs = []        % what the machine does otherwise
}).

%% How many milliseconds a process may be silent.
-define(PATIENCE, 30000).
-define(GREATEST_HEAP, 20000000).

%% The limits of the explorer (docs/LANGUAGE.md, "Evaluation"): how many nodes a term has, and how many bits an integer has
%% beside its sign. How many applications a process makes between two requests is said by the module.
-define(NODES, 10000).
-define(BITS, 63).

load(Code) ->
    Name = report_instrument:name(),
    {module, Name} = code:load_binary(Name, atom_to_list(Name), Code),
    erlang:system_flag(backtrace_depth, 200),
    ok.

%% Plays the events of a transcript of a module.
play(Module, Events) ->
    Named = names(Events),
    Result = lists:foldl(fun(Start, Played) -> play_process(Start, Events, Named, Played) end,
                         #played{}, [{"P", first} | starts(Module, Events)]),
    [exit(Pid, kill) || Pid <- maps:values(Named), is_pid(Pid)],
    #{lines => Result#played.lines, stands => Result#played.stands, limits => Result#played.limits,
      times => Result#played.times, timed => Result#played.timed, differs => lists:reverse(Result#played.differs)}.

%% ---- names

%% A process or a reference of the machine for each name, in the same order.
names(Events) ->
    Told = [{pid, "P"} | lists:flatmap(fun names_of_event/1, Events)],
    Sorted = fun(Kind) -> [Name || {_, Name} <- lists:usort([{path(N), {K, N}} || {K, N} <- Told, K =:= Kind])] end,
    Pids = Sorted(pid),
    References = Sorted(ref),
    maps:from_list(lists:zip(Pids, lists:sort([spawn(fun stage/0) || _ <- Pids])) ++
                   lists:zip(References, lists:sort([make_ref() || _ <- References]))).

path(Name) -> [list_to_integer(Part) || Part <- tl(string:split(Name, ".", all))].

names_of_event(#event{who = {From, To}, deed = Deed}) -> [{pid, From}, {pid, To} | names_of_deed(Deed)];
names_of_event(#event{who = Name, deed = Deed}) -> [{pid, Name} | names_of_deed(Deed)].

names_of_deed({call, _, _, Arguments, {ok, Term}}) -> lists:flatmap(fun report_term:names/1, [Term | Arguments]);
names_of_deed({call, _, _, Arguments, _}) -> lists:flatmap(fun report_term:names/1, Arguments);
names_of_deed({exit, Reason, _}) -> report_term:names(Reason);
names_of_deed({down, Reference, {message, Term}}) -> report_term:names(Reference) ++ report_term:names(Term);
names_of_deed({_, Reference, Term, _}) -> report_term:names(Reference) ++ report_term:names(Term);
names_of_deed({_, Term}) -> report_term:names(Term);
names_of_deed(_) -> [].

%% What each process that was spawned began with; in another module there is nothing.
starts(Own, Events) ->
    [{Child, {if Module =:= Own -> report_instrument:name(); true -> none end, Function, Arguments}} ||
        #event{deed = {call, erlang, Spawn, [{atom, Module}, {atom, Function}, Arguments], {ok, Answer}}} <- Events,
        lists:member(Spawn, [spawn, spawn_link, spawn_monitor]), Child <- [child(Answer)]].

child({pid, Name}) -> Name;
child({tuple, [{pid, Name}, _]}) -> Name.

%% ---- one process

%% A process of the machine waits on the stage until it is given what to play.
stage() ->
    receive {play, Boss, Start, Script} -> perform(Boss, Start, Script) end.

play_process({Name, Start}, Events, Named, Played) ->
    Pid = maps:get({pid, Name}, Named),
    Own = [Event || #event{who = Who} = Event <- Events, Who =:= Name],
    Ended = lists:any(fun(Event) -> ended_by(Name, Event) end, Events),
    Watch = monitor(process, Pid),
    Pid ! {play, self(), real_start(Start, Named), {Own, Named}},
    listen(Name, {Pid, Watch}, Ended, Played).

%% Whether a delivery ended the process.
ended_by(Name, #event{who = {_, Name}, deed = Deed}) when is_tuple(Deed) ->
    case element(tuple_size(Deed), Deed) of
        {ends, _} -> true;
        _ -> false
    end;
ended_by(_, _) -> false.

real_start(first, _) -> first;
real_start({Module, Function, Arguments}, Named) -> {Module, Function, report_term:real(Arguments, Named)}.

%% Takes in what the process sends, until it has reached its last place, has ended or is lost.
listen(Name, {Pid, Watch} = Player, Ended, Played) ->
    receive
        {told, Pid, {line, Number, Place}} ->
            Lines = Played#played.lines,
            listen(Name, Player, Ended, Played#played{lines = Lines#{Number => Place}});
        {told, Pid, {time, Number, Time}} ->
            Times = Played#played.times,
            listen(Name, Player, Ended, Played#played{times = Times#{Number => Time}});
        {told, Pid, {timed, Number}} ->
            listen(Name, Player, Ended, Played#played{timed = [Number | Played#played.timed]});
        {told, Pid, {limit, Number, Limit, Place}} ->
            #played{lines = Lines, limits = Limits} = Played,
            Played#played{lines = Lines#{Number => Place}, limits = Limits#{Number => {Limit, Place}}};
        {told, Pid, {stands, _}} when Ended -> Played;
        {told, Pid, {stands, Place}} ->
            Stands = Played#played.stands,
            Played#played{stands = Stands#{Name => Place}};
        {told, Pid, {differs, Text}} ->
            Played#played{differs = [Name ++ ": " ++ Text | Played#played.differs]};
        {told, Pid, ended} -> Played;
        {'DOWN', Watch, process, Pid, _} -> Played
    after ?PATIENCE -> Played
    end.

perform(Boss, Start, {Own, Named}) ->
    process_flag(max_heap_size, #{size => ?GREATEST_HEAP, kill => true, error_logger => false}),
    put('$boss', Boss),
    put('$events', Own),
    put('$named', Named),
    put('$applied', 0),
    put('$kept', []),
    put('$allowed', (report_instrument:name()):(report_instrument:allowed())()),
    ended(try begin_with(Start) of _ -> {{atom, normal}, none}
          catch Class:Reason:Stack -> {reason(Class, of_real(Reason)), source_of(Stack)}
          end).

begin_with(first) -> apply(report_instrument:name(), report_instrument:first(), []);
begin_with({none, _, _}) -> erlang:error(undef);
begin_with({Module, Function, Arguments}) -> apply(Module, Function, Arguments).

reason(exit, Reason) -> Reason;
reason(error, Reason) -> {tuple, [Reason, {list, [], nil}]};
reason(throw, Value) -> {tuple, [{tuple, [{atom, nocatch}, Value]}, {list, [], nil}]}.

%% The end of a process, compared with what the transcript says next.
ended({Reason, Place}) ->
    case next() of
        #event{number = Number, deed = {ends, Reason}} -> tell({line, Number, of_callback(Place)}), tell(ended);
        #event{deed = runaway} -> tell(ended);
        none -> tell({stands, of_callback(Place)});
        Event -> differ(Event, ["ends ", report_term:text(Reason)])
    end,
    stop().

%% ---- what the module asks

%% A call of processes or tables.
ask(Place, Module, Function, Arguments) ->
    Here = of_callback(place(Place)),
    Asked = [of_real(Argument) || Argument <- Arguments],
    case next() of
        #event{number = Number, deed = {call, Module, Function, Asked, Answer}} ->
            tell({line, Number, Here}),
            put('$applied', 0),
            answer(Answer);
        none -> tell({stands, Here}), stop();
        #event{deed = runaway} -> tell(ended), stop();
        Event -> differ(Event, ["asks ", report_text:call(Module, Function, Asked)])
    end.

answer({ok, Term}) -> report_term:real(Term, get('$named'));
answer({refused, "noproc"}) -> erlang:error(noproc);
answer({refused, _}) -> erlang:error(badarg);
answer({ends, _}) -> tell(ended), stop().

%% A receive, or a sleep, before it looks for its message.
wait(Place, Kind, Timeout) ->
    is_timeout(Timeout) orelse erlang:error(timeout_value),
    Here = place(Place),
    put('$taken', none),
    put('$applied', 0),
    case next() of
        #event{number = Number, deed = {receives, Term}} = Event ->
            tell({line, Number, Here}),
            awaits(Here, Number),
            [tell({timed, Number}) || Timeout =/= infinity],
            put('$taken', Event),
            self() ! report_term:real(Term, get('$named'));
        #event{number = Number, deed = timeout} when Timeout =/= infinity ->
            tell({line, Number, Here}),
            awaits(Here, Number),
            [tell({time, Number, Timeout}) || Timeout > 0, Kind =:= 'receive', not is_timer()];
        none -> tell({stands, of_callback(Here)}), stop();
        #event{deed = runaway} -> tell(ended), stop();
        Event -> differ(Event, "waits for a message")
    end.

%% Whether a process is a timer of the library, whose time is none of a receive in the source.
is_timer() ->
    {current_stacktrace, Stack} = process_info(self(), current_stacktrace),
    lists:any(fun({_, Function, _, _}) -> lists:prefix("timer ", atom_to_list(Function)) end, Stack).

is_timeout(infinity) -> true;
is_timeout(Timeout) -> is_integer(Timeout) andalso Timeout >= 0 andalso Timeout =< 16#ffffffff.

%% A receive took no message: right where the transcript gave it none.
not_taken() ->
    case get('$taken') of
        none -> ok;
        Event -> differ(Event, "does not take this message")
    end.

%% A call of the process dictionary. What the module keeps there is one entry of this process's own dictionary: the keys in
%% their order, with their values.
keeps(Function, Arguments) ->
    {Value, Kept} = kept(Function, Arguments, get('$kept')),
    put('$kept', Kept),
    Value.

kept(put, [Key, Value], Kept) -> {value_of(Key, Kept), orddict:store(Key, Value, Kept)};
kept(get, [], Kept) -> {Kept, Kept};
kept(get, [Key], Kept) -> {value_of(Key, Kept), Kept};
kept(get_keys, [], Kept) -> {orddict:fetch_keys(Kept), Kept};
kept(get_keys, [Value], Kept) -> {[Key || {Key, Of} <- Kept, Of =:= Value], Kept};
kept(erase, [], Kept) -> {Kept, []};
kept(erase, [Key], Kept) -> {value_of(Key, Kept), orddict:erase(Key, Kept)}.

value_of(Key, Kept) ->
    case orddict:find(Key, Kept) of
        {ok, Value} -> Value;
        error -> undefined
    end.

caught(throw, Value) -> Value;
caught(exit, Reason) -> {'EXIT', Reason};
caught(error, Reason) -> {'EXIT', {Reason, []}}.

raised(Class, Reason) -> erlang:raise(Class, Reason, []).

%% ---- the script of a process

%% The next event of this process, which is taken off.
next() ->
    erase('$awaited'),
    erase('$called'),
    case get('$events') of
        [Event | Events] -> put('$events', Events), Event;
        [] -> none
    end.

tell(What) -> get('$boss') ! {told, self(), What}.

%% ---- callbacks

%% OTP's behaviours come to a computed call, of a callback or of something else.
enters(Kind) -> is_in_source() orelse put('$called', Kind).

%% Such a call has its value.
leaves() ->
    erase('$called'),
    case {get('$callback'), is_in_source()} of
        {{in, Name, Place}, false} -> put('$callback', {'after', Name, Place});
        _ -> ok
    end.

%% A clause of the source runs. The first one after such a call is what was called; what was received before is for it.
runs(Name, Place) ->
    case erase('$called') of
        undefined -> ok;
        Kind ->
            put('$callback', {in, Name, Place}),
            [tell({line, Number, {for, Name, Place}}) || Kind =:= callback, Number <- [get('$awaited')], is_integer(Number)]
    end.

%% What stands for a place within OTP's behaviours: the callback that ran last there since a message was taken, or still does.
of_callback({library, _} = Place) ->
    case get('$callback') of
        {_, _, _} = Callback -> Callback;
        _ -> Place
    end;
of_callback(Place) -> Place.

is_in_source() ->
    {current_stacktrace, Stack} = process_info(self(), current_stacktrace),
    case source_of(Stack) of
        {File, _} when is_list(File) -> true;
        _ -> false
    end.

%% What is taken within OTP's behaviours may be for the callback that comes next.
awaits({library, _}, Number) -> erase('$callback'), put('$awaited', Number);
awaits(_, _) -> ok.

%% ---- the limits of the explorer

%% An application, before it is made, with its arguments: the explorer lets the process run away where there were as many
%% as there may be since its last request.
applied(Place, Arguments) ->
    [built(Place, Argument) || Argument <- Arguments],
    Allowed = get('$allowed'),
    case {get('$applied'), get('$events')} of
        {Allowed, [#event{number = Number, deed = runaway} | _]} -> met(Number, {applications, Allowed}, place(Place));
        {Count, _} -> put('$applied', Count + 1)
    end.

%% A value that the process has. If it is past a limit, the explorer ends the process here or lets it catch the error.
built(Place, Value) ->
    case {limit_of(Value), get('$events')} of
        {none, _} -> ok;
        {Limit, [#event{number = Number, deed = {ends, {tuple, [{atom, system_limit}, _]}}} | _]} -> met(Number, Limit, place(Place));
        {_, _} -> put('$is_past_limit', true)
    end.

limit_of(Value) when is_integer(Value), Value >= 1 bsl ?BITS; is_integer(Value), Value < -(1 bsl ?BITS) -> bits;
limit_of(Value) ->
    case erts_debug:flat_size(Value) >= ?NODES andalso nodes_left(Value, ?NODES) < 0 of
        true -> nodes;
        false -> none
    end.

%% How many nodes more there may be after those of a term; less than 0 where it has too many. No term has more than one
%% node more than it takes words of memory.
nodes_left(_, Left) when Left < 0 -> Left;
nodes_left([First | Rest], Left) -> nodes_left(Rest, nodes_left(First, Left - 1));
nodes_left(Tuple, Left) when is_tuple(Tuple) -> lists:foldl(fun nodes_left/2, Left - 1, tuple_to_list(Tuple));
nodes_left(_, Left) -> Left - 1.

met(Number, Limit, Place) -> tell({limit, Number, Limit, Place}), stop().

%% Nothing that the module could catch ends its part here.
stop() -> receive {never, _, _, _} -> ok end.

%% The limits of the explorer are not those of the machine: where it goes on, the process met one of them.
%% Where the module catches that error, the machine goes on in another way, and nothing more can be compared.
differ(#event{number = Number, deed = {ends, {tuple, [{atom, system_limit}, _]}}}, _) -> met(Number, some, none);
differ(#event{number = Number, deed = Deed}, Does) ->
    tell(case get('$is_past_limit') of
        true -> ended;
        undefined -> {differs, lists:flatten(["at event ", integer_to_list(Number), " the transcript says \"",
                                              report_text:deed(Deed), "\", and the machine ", Does])}
    end),
    stop().

of_real(Term) ->
    Names = case get('$names') of
        undefined -> maps:from_list([{Real, Name} || {Name, Real} <- maps:to_list(get('$named'))]);
        Known -> Known
    end,
    put('$names', Names),
    report_term:of_real(Term, Names).

%% ---- places

%% The place that a reader looks for: where a library function asks, that of the source which called it.
place(none) ->
    {current_stacktrace, Stack} = process_info(self(), current_stacktrace),
    source_of(Stack);
place(Place) -> Place.

%% The innermost call on a stack that is in the source, or the library where no call is.
source_of(Stack) ->
    Name = report_instrument:name(),
    Own = [Frame || {Module, _, _, _} = Frame <- Stack, Module =:= Name],
    case [{File, Line} || {_, _, _, Note} <- Own, {file, File} <- Note, {line, Line} <- Note] of
        [Place | _] -> Place;
        [] -> library([atom_to_list(Function) || {_, Function, _, _} <- Own])
    end.

%% The library whose copy in the converted module is at work, as gen_server of 'gen_server:call' and of
%% 'fun in gen_server start'.
library(Names) ->
    Found = [Module || Name <- Names,
                       {match, [_, Module]} <- [re:run(Name, "^([a-z]+ (?:in|of) )?([a-z_]+)[: ][a-z]",
                                                       [{capture, all_but_first, list}])]],
    case [Module || Module <- Found, Module =/= "apply", Module =/= "call", Module =/= "computed"] of
        [Module | _] -> {library, Module};
        [] -> none
    end.
