%% What a run leaves that its transcript does not say line by line: who lives, and which signals are on their way.
%%
%% It is kept as docs/PROCESSES.md has it, as far as it tells which deliveries come next. Nobody believes it: the program
%% replays each schedule that is made with it, and refuses a step that is not enabled.
-module(report_world).
-export([new/0, after_event/2, living/1, is_gone/2, arriving/1, arriving_at_once/1, holder/2, names/2, tables/2, key_place/2, maker/1, alias_end/2]).
-include("report.hrl").

-record(world, {
    living = ["P"],   % who lives, in the order in which they began
    gone = [],        % who has ended
    ways = #{},       % how many signals are on their way from one to another, by {From, To}
    links = [],       % who is linked to whom, each pair once, in order
    watches = [],     % the watches, {Reference, Watcher, Watched}
    aliases = #{},    % the references that are aliases, and how each ends: explicit_unalias, demonitor or reply; or `ended`
    timers = [],      % the senders that are timers
    names = [],       % who holds which name, {Name, Holder}
    tables = [],      % the tables, {Table, Owner, Heir}
    places = #{}      % which element of its objects is the key of a table, where that is not the first
}).

new() -> #world{}.

living(#world{living = Living}) -> Living.

is_gone(Name, #world{gone = Gone}) -> lists:member(Name, Gone).

%% The ways on which a signal may be delivered, in the order of steps.
arriving(#world{ways = Ways}) ->
    [Way || {_, Way} <- lists:sort([{{path(From), path(To)}, {From, To}} || {From, To} <- maps:keys(Ways)])].

%% Those of signals that may not stay on their way where signals arrive at once. A timer's message comes when it comes.
arriving_at_once(#world{timers = Timers} = World) -> [Way || {From, _} = Way <- arriving(World), not lists:member(From, Timers)].

path(Name) -> [list_to_integer(Part) || Part <- tl(string:split(Name, ".", all))].

%% The process that made a reference.
maker("#" ++ Name) -> lists:append(lists:join(".", lists:droplast(string:split(Name, ".", all)))).

%% How an alias ends, as explicit_unalias, demonitor or reply; `ended` where it has, and none of another reference.
alias_end(Reference, #world{aliases = Aliases}) -> maps:get(Reference, Aliases, none).

%% Who holds a name, or none.
holder(Name, #world{names = Names}) -> proplists:get_value(Name, Names, none).

%% The names that a process holds, and the tables that it owns.
names(Name, #world{names = Names}) -> [Held || {Held, Holder} <- Names, Holder =:= Name].
tables(Name, #world{tables = Tables}) -> [Table || {Table, Owner, _} <- Tables, Owner =:= Name].

%% Which element of its objects is the key of a table.
key_place(Table, #world{places = Places}) -> maps:get(Table, Places, 1).

%% ---- events

after_event(#event{who = {From, To} = Way, deed = Deed}, World) ->
    Taken = settled(From, To, Deed, taken(Way, World)),
    case Deed of
        {exit, _, {ends, _}} -> ended(To, Taken);
        _ -> Taken
    end;
after_event(#event{who = Name, deed = {call, _, _, _, {ends, _}}}, World) -> ended(Name, World);
after_event(#event{who = Name, deed = {call, Module, Function, Arguments, {ok, Answer}}}, World) ->
    served(Module, Function, Arguments, Answer, Name, World);
after_event(#event{who = Name, deed = {ends, _}}, World) -> ended(Name, World);
after_event(#event{who = Name, deed = runaway}, World) -> ended(Name, World);
after_event(_, World) -> World.

%% A link and a watch go with their signals.
settled(From, To, {exit, _, _}, #world{links = Links} = World) ->
    case is_gone(From, World) of
        true -> World#world{links = lists:delete(pair(From, To), Links)};
        false -> World
    end;
settled(_, _, {down, {ref, Reference}, _}, World) -> unwatched(Reference, World);
settled(_, _, {alias, {ref, Reference}, _, {message, _}}, World) -> passed_in(Reference, World);
settled(_, _, _, World) -> World.

served(erlang, Spawn, _, {pid, Child}, Name, World) when Spawn =:= spawn; Spawn =:= spawn_link ->
    Begun = begun(Child, World),
    case Spawn of
        spawn_link -> linked(Name, Child, Begun);
        spawn -> Begun
    end;
served(erlang, spawn_monitor, _, {tuple, [{pid, Child}, {ref, Reference}]}, Name, World) -> watched(Reference, Name, Child, begun(Child, World));
served(erlang, Send, [{ref, Reference}, _], _, Name, World) when Send =:= '!'; Send =:= send ->
    case alias_end(Reference, World) of
        How when How =:= none; How =:= ended -> World;
        _ -> put_on(Name, maker(Reference), World)
    end;
served(erlang, Send, [To, _], _, Name, World) when Send =:= '!'; Send =:= send ->
    case receiver(To, World) of
        Name -> World;
        Receiver -> put_on(Name, Receiver, World)
    end;
served(erlang, exit, [{pid, To}, _], _, Name, World) when To =/= Name -> put_on(Name, To, World);
served(erlang, Start, [_, {pid, To}, _], {ref, "#" ++ Timer}, _, #world{timers = Timers} = World) when Start =:= start_timer; Start =:= send_after ->
    put_on(Timer, To, World#world{timers = [Timer | Timers]});
served(erlang, link, [{pid, To}], _, Name, #world{links = Links} = World) when To =/= Name ->
    case {lists:member(pair(Name, To), Links), is_gone(To, World)} of
        {true, _} -> World;
        {false, false} -> linked(Name, To, World);
        {false, true} -> put_on(To, Name, linked(Name, To, World))
    end;
served(erlang, unlink, [{pid, To}], _, Name, #world{links = Links} = World) -> World#world{links = lists:delete(pair(Name, To), Links)};
served(erlang, monitor, [_, {pid, To} | Options], {ref, Reference}, Name, World) -> watched(Reference, Name, To, how(Options, none), World);
served(erlang, monitor, [_, To | Options], {ref, Reference}, Name, World) -> watched(Reference, Name, receiver(To, World), how(Options, none), World);
served(erlang, demonitor, [{ref, Reference} | _], _, Name, World) ->
    case maker(Reference) of
        Name -> unwatched(Reference, World);
        _ -> World
    end;
served(erlang, alias, Options, {ref, Reference}, _, World) -> aliased(Reference, how(Options, explicit_unalias), World);
served(erlang, unalias, [{ref, Reference}], {atom, true}, _, World) -> unaliased(Reference, World);
served(erlang, register, [{atom, Held}, {pid, Holder}], _, _, #world{names = Names} = World) -> World#world{names = [{Held, Holder} | Names]};
served(erlang, unregister, [{atom, Held}], _, _, #world{names = Names} = World) -> World#world{names = lists:keydelete(Held, 1, Names)};
served(ets, new, [_, {list, Options, nil} = All], Table, Name, #world{tables = Tables, places = Places} = World) ->
    Given = [Place || {tuple, [{atom, keypos}, {int, Place}]} <- Options],
    World#world{tables = Tables ++ [{Table, Name, heir(All, none)}], places = Places#{Table => lists:last([1 | Given])}};
served(ets, setopts, [Table, Options], _, _, #world{tables = Tables} = World) ->
    World#world{tables = [{One, Owner, if One =:= Table -> heir(Options, Heir); true -> Heir end} || {One, Owner, Heir} <- Tables]};
served(ets, give_away, [Table, {pid, To}, _], _, Name, #world{tables = Tables} = World) when To =/= Name ->
    put_on(Name, To, World#world{tables = [{One, if One =:= Table -> To; true -> Owner end, Heir} || {One, Owner, Heir} <- Tables]});
served(ets, delete, [Table], _, _, #world{tables = Tables} = World) -> World#world{tables = lists:keydelete(Table, 1, Tables)};
served(_, _, _, _, _, World) -> World.

receiver({pid, To}, _) -> To;
receiver({atom, Name}, World) -> holder(Name, World);
receiver({tuple, [{atom, Name}, {atom, nonode@nohost}]}, World) -> holder(Name, World);
receiver(_, _) -> none.

%% The heir that options give, or else the one that is known.
heir({list, Options, nil}, Known) -> lists:foldl(fun heir/2, Known, Options);
heir({tuple, [{atom, heir}, {pid, Heir}, _]}, _) -> Heir;
heir({tuple, [{atom, heir}, {atom, none}]}, _) -> none;
heir(_, Known) -> Known.

begun(Child, #world{living = Living} = World) -> World#world{living = Living ++ [Child]}.

linked(Name, Other, #world{links = Links} = World) -> World#world{links = [pair(Name, Other) | Links]}.

pair(Name, Other) -> {min(Name, Other), max(Name, Other)}.

watched(Reference, Watcher, Watched, #world{watches = Watches} = World) -> World#world{watches = Watches ++ [{Reference, Watcher, Watched}]}.

%% A watch with an alias, except of oneself. Of what is gone its message comes at once, and of a name that nobody has from the watcher.
watched(_, Name, Name, _, World) -> World;
watched(Reference, Name, none, How, World) -> put_on(Name, Name, aliased(Reference, How, watched(Reference, Name, Name, World)));
watched(Reference, Name, To, How, World) ->
    Watched = aliased(Reference, How, watched(Reference, Name, To, World)),
    case is_gone(To, World) of
        true -> put_on(To, Name, Watched);
        false -> Watched
    end.

%% With a watch ends an alias that was made with it, unless unalias/1 alone ends that.
unwatched(Reference, #world{watches = Watches} = World) ->
    Unwatched = World#world{watches = lists:keydelete(Reference, 1, Watches)},
    case lists:keymember(Reference, 1, Watches) andalso alias_end(Reference, World) of
        How when How =:= false; How =:= none; How =:= explicit_unalias -> Unwatched;
        _ -> unaliased(Reference, Unwatched)
    end.

aliased(_, none, World) -> World;
aliased(Reference, How, #world{aliases = Aliases} = World) -> World#world{aliases = Aliases#{Reference => How}}.

%% How an alias ends, as the last of its options says it; Else where none does.
how([], Else) -> Else;
how([{list, Options, _}], Else) -> lists:last([Else | [end_of(Option) || Option <- Options]]).

end_of({tuple, [{atom, alias}, How]}) -> end_of(How);
end_of({atom, reply_demonitor}) -> reply;
end_of({atom, How}) -> How.

unaliased(Reference, #world{aliases = Aliases} = World) -> World#world{aliases = Aliases#{Reference := ended}}.

%% A message came through an alias, which may end it, and its watch with it.
passed_in(Reference, World) ->
    case alias_end(Reference, World) of
        reply -> unaliased(Reference, unwatched(Reference, World));
        _ -> World
    end.

%% A signal is put on its way to a process that lives.
put_on(From, To, #world{living = Living, ways = Ways} = World) ->
    case lists:member(To, Living) of
        true -> World#world{ways = maps:update_with({From, To}, fun(Count) -> Count + 1 end, 1, Ways)};
        false -> World
    end.

taken(Way, #world{ways = Ways} = World) ->
    case Ways of
        #{Way := Count} when Count > 1 -> World#world{ways = Ways#{Way := Count - 1}};
        _ -> World#world{ways = maps:remove(Way, Ways)}
    end.

%% ---- ends

%% What an end does: tables pass to their heirs or go, partners and watchers are told, names are freed, and nothing arrives any
%% more.
ended(Name, #world{living = Living, gone = Gone, ways = Ways, links = Links, watches = Watches, names = Names, tables = Tables} = World) ->
    Left = World#world{living = lists:delete(Name, Living), gone = [Name | Gone], ways = maps:filter(fun({_, To}, _) -> To =/= Name end, Ways),
                       names = [Held || {_, Holder} = Held <- Names, Holder =/= Name]},
    {Passed, Heirs} = passed(Name, Left, Tables),
    Partners = [if One =:= Name -> Other; true -> One end || {One, Other} <- Links, One =:= Name orelse Other =:= Name],
    Watchers = [Watcher || {_, Watcher, Watched} <- Watches, Watched =:= Name],
    lists:foldl(fun(To, Told) -> put_on(Name, To, Told) end, Left#world{tables = Passed}, Heirs ++ Partners ++ Watchers).

%% The tables that are left, and the heirs that get one.
passed(Name, #world{living = Living}, Tables) ->
    Passes = fun(Owner, Heir) -> Owner =:= Name andalso lists:member(Heir, Living) end,
    {[{Table, if Owner =:= Name -> Heir; true -> Owner end, Heir} || {Table, Owner, Heir} <- Tables, Owner =/= Name orelse Passes(Owner, Heir)],
     [Heir || {_, Owner, Heir} <- Tables, Passes(Owner, Heir)]}.
