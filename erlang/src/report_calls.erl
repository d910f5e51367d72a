%% The steps of a call of OTP's behaviours as one line, where nothing comes between them: of a whole call, or of its beginning,
%% its answer and its end, where others come between these; and those of a start and of a cast.
-module(report_calls).
-export([folded/2]).
-include("report.hrl").

%% What is shown in the place of events: #event{}, or {First, Last, Who, Text, Place} for those from the first to the last.
folded(Events, #{roles := Roles, places := Places}) -> all(Events, #{}, {Roles, Places}).

%% Begun has what each call that was begun asks, by its tag.
all([], _, _) -> [];
all([Event | Rest] = Events, Begun, Known) ->
    case first_of([fun whole/3, fun beginning/3, fun answer/3, fun ending/3, fun start/3, fun cast/3], Events, Begun, Known) of
        {Last, Who, Text, Place, New, Left} -> [{Event#event.number, Last, Who, Text, Place} | all(Left, New, Known)];
        none -> [Event | all(Rest, Begun, Known)]
    end.

first_of([], _, _, _) -> none;
first_of([Fold | Folds], Events, Begun, Known) ->
    case Fold(Events, Begun, Known) of
        none -> first_of(Folds, Events, Begun, Known);
        Found -> Found
    end.

%% A call that nothing comes between.
whole(Events, Begun, {_, Places} = Known) ->
    case beginning(Events, Begun, Known) of
        {_, Client, _, Place, New, [#event{number = Asked} | _] = Served} ->
            case answer(Served, New, Known) of
                {_, _, _, _, _, Answered} ->
                    case ending(Answered, New, Known) of
                        {Last, Client, Text, _, Left, Rest} ->
                            {Last, Client, Text, with_callback(Place, maps:get(Asked, Places, none)), Left, Rest};
                        _ -> none
                    end;
                none -> none
            end;
        _ -> none
    end.

%% The place of a call, with what it is for where that is known.
with_callback(Place, {for, _, _} = Callback) -> {both, Place, Callback};
with_callback(Place, _) -> Place.

%% What a client does until its call has arrived. A server that has a name is looked up first.
beginning([#event{who = Client, deed = {call, erlang, whereis, [Name], {ok, {pid, Server}}}} | Rest], Begun, Known) ->
    case asked(Rest, Client, Server) of
        {Tag, Request, Last, Left} -> begun(Last, Client, Server, Name, Tag, Request, Begun, Known, Left);
        none -> none
    end;
beginning([#event{who = Client, deed = {call, erlang, monitor, [_, {pid, Server} | _], _}} | _] = Events, Begun, Known) ->
    case asked(Events, Client, Server) of
        {Tag, Request, Last, Left} -> begun(Last, Client, Server, {pid, Server}, Tag, Request, Begun, Known, Left);
        none -> none
    end;
beginning(_, _, _) -> none.

%% {Tag, Request, the number of the last event, what comes after}, or none.
asked([#event{who = Client, deed = {call, erlang, monitor, [{atom, process}, {pid, Server} | _], {ok, Reference}}},
       #event{who = Client, deed = {call, erlang, Send, [{pid, Server}, Message], {ok, _}}},
       #event{number = Last, who = {Client, Server}, deed = {brings, Message}} | Rest], Client, Server) when Send =:= '!'; Send =:= send ->
    case Message of
        {tuple, [{atom, '$gen_call'}, {tuple, [{pid, Client}, Tag]}, Request]} ->
            case is_tag(Tag, Reference) of
                true -> {Tag, Request, Last, Rest};
                false -> none
            end;
        _ -> none
    end;
asked(_, _, _) -> none.

%% A call with a time is answered by an alias.
is_tag(Reference, Reference) -> true;
is_tag({list, [{atom, alias}], Reference}, Reference) -> true;
is_tag(_, _) -> false.

begun(Last, Client, Server, Name, Tag, Request, Begun, {Roles, Places}, Rest) ->
    Text = [behaviour(Server, Roles), ":call(", report_term:text(Name), ",", report_term:text(Request), ")"],
    {Last, Client, ["begins ", Text], maps:get(Last - 1, Places, none), Begun#{Tag => Text}, Rest}.

%% What a server does from when it takes a call until its answer has arrived.
answer([#event{number = Number, who = Server, deed = {receives, {tuple, [{atom, '$gen_call'}, {tuple, [{pid, Client}, Tag]}, Request]}}},
        #event{who = Server, deed = {call, erlang, '!', [To, {tuple, [Tag, Given]} = Message], {ok, _}}},
        #event{number = Last, who = {Server, Client}, deed = Deed} | Rest], Begun, {_, Places}) ->
    case is_answer(To, Deed, Client, Tag, Message) of
        true ->
            Text = ["answers ", Client, ": ", report_term:text(Request), " -> ", report_term:text(Given)],
            {Last, Server, Text, maps:get(Number, Places, none), Begun, Rest};
        false -> none
    end;
answer(_, _, _) -> none.

%% Whether what was sent arrives: to the client, or by the alias that its tag has.
is_answer({pid, Client}, {brings, Message}, Client, _, Message) -> true;
is_answer(Alias, {alias, Alias, Message, {message, _}}, _, Tag, Message) -> is_tag(Tag, Alias);
is_answer(_, _, _, _, _) -> false.

%% What a client does when its answer has come.
ending([#event{number = Number, who = Client, deed = {receives, {tuple, [Tag, Given]}}},
        #event{number = Last, who = Client, deed = {call, erlang, demonitor, [Reference, {list, [{atom, flush}], nil}], {ok, _}}} | Rest],
       Begun, {_, Places}) ->
    case {is_tag(Tag, Reference), Begun} of
        {true, #{Tag := Text}} ->
            {Last, Client, [Text, " -> ", report_term:text(Given)], maps:get(Number, Places, none), maps:remove(Tag, Begun), Rest};
        _ -> none
    end;
ending(_, _, _) -> none.

%% A process of a behaviour that is started, and has answered that it is there.
start([#event{number = First, who = Parent, deed = {call, erlang, Spawn, [_, {atom, Name}, {list, Arguments, nil}], _}} = Spawned | Rest],
      Begun, {_, Places}) ->
    case {report_story:spawned(Spawned), report_begin:meant(Name, Arguments)} of
        {[{Child, _}], {behaviour, Behaviour, Module}} ->
            case ready(unregistered(Rest, Child), Parent, Child, Spawn) of
                {Last, Left} ->
                    Of = [report_term:text({atom, Module}) || Module =/= none],
                    Text = [atom_to_list(Behaviour), ":", started(Spawn), "(", Of, ") -> {ok,", Child, "}"],
                    {Last, Parent, Text, maps:get(First, Places, none), Begun, Left};
                none -> none
            end;
        _ -> none
    end;
start(_, _, _) -> none.

started(spawn_link) -> "start_link";
started(_) -> "start".

%% A process with a name takes it first.
unregistered([#event{who = Child, deed = {call, erlang, register, _, {ok, _}}} | Rest], Child) -> Rest;
unregistered(Events, _) -> Events.

ready([#event{who = Child, deed = {call, erlang, '!', [{pid, Parent}, Message], {ok, _}}},
       #event{who = {Child, Parent}, deed = {brings, Message}},
       #event{number = Last, who = Parent, deed = {receives, Message}} | Rest], Parent, Child, Spawn) ->
    case Message of
        {tuple, [{atom, ack}, {pid, Child}, {tuple, [{atom, ok}, {pid, Child}]}]} -> unwatched(Last, Rest, Parent, Spawn);
        _ -> none
    end;
ready(_, _, _, _) -> none.

%% One that is started without a link is watched until it is there.
unwatched(_, [#event{number = Last, who = Parent, deed = {call, erlang, demonitor, _, {ok, _}}} | Rest], Parent, spawn_monitor) ->
    {Last, Rest};
unwatched(_, _, _, spawn_monitor) -> none;
unwatched(Last, Rest, _, _) -> {Last, Rest}.

%% A cast, until it has arrived.
cast([#event{number = First, who = Client, deed = {call, erlang, Send, [To, {tuple, [{atom, '$gen_cast'}, Request]} = Message], {ok, _}}},
      #event{number = Last, who = {Client, Server}, deed = {brings, Message}} | Rest], Begun, {Roles, Places})
  when Send =:= '!'; Send =:= send ->
    Text = [behaviour(Server, Roles), ":cast(", report_term:text(To), ",", report_term:text(Request), ")"],
    {Last, Client, Text, maps:get(First, Places, none), Begun, Rest};
cast(_, _, _) -> none.

%% The module whose function is called, by what the server runs.
behaviour(Server, Roles) ->
    case lists:prefix("gen_statem", lists:flatten(maps:get(Server, Roles, ""))) of
        true -> "gen_statem";
        false -> "gen_server"
    end.
