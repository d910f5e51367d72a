%% Concurrent programs, as their first lines describe them (program_checks.erl). The report is of the whole tree; each end
%% that shaken runs on the real machine show is in it; and the text is the same each time.
-module(program_tests).

-export([all/4]).

all(Program, Folder, Work, Library) ->
    Files = lists:sort(filelib:wildcard(filename:join(Folder, "programs/*.erl"))),
    lists:append([one(File, Program, Folder, Work, Library) || File <- Files]).

one(File, Program, Folder, Work, Library) ->
    Name = filename:basename(File, ".erl"),
    case converter:run([File], Library) of
        {0, Text, _} ->
            #{depth := Depth, errors := Errors} = program_checks:header(File),
            Report = explorer:explore(Program, Work, Text, Depth),
            [{"programs: " ++ Name ++ ": " ++ What, Outcome} || {What, Outcome} <-
                [{"report", program_checks:report(Report, Errors)},
                 {"whole", whole(Report, explorer:explore(Program, Work, Text, Depth + 1))},
                 {"states", states(Report, explorer:explore_states(Program, Work, Text, Depth))},
                 {"shaken runs", program_checks:shaken([File], Errors)},
                 {"text", program_checks:same_text(Folder, [File], Text)},
                 {"core erlang", program_checks:taken(Text)},
                 {"kept", kept(Folder, Name, Text, Report)}]];
        {_, _, Refused} -> [{"programs: " ++ Name, {failed, lists:flatten(Refused)}}]
    end.

%% With one more step nothing is added.
whole(Report, Longer) ->
    case {nodes_of(Report), nodes_of(Longer)} of
        {{complete, N}, {complete, N}} -> passed;
        Both -> {failed, Both}
    end.

%% A search by states lists the same.
states(Report, "depth " ++ _ = States) ->
    case {explorer:findings(Report), explorer:findings(States)} of
        {Same, Same} -> passed;
        _ -> {failed, {of_the_tree, Report, of_states, States}}
    end;
states(_, Refusal) -> {failed, Refusal}.

nodes_of(Report) ->
    case re:run(Report, "^depth [0-9]+, nodes ([0-9]+), complete", [{capture, [1], list}]) of
        {match, [N]} -> {complete, N};
        nomatch -> {incomplete, Report}
    end.

%% What is kept was converted by one release; others may number variables in another way.
kept(Folder, Name, Text, Report) ->
    Kept = fun(Ending) -> file:read_file(filename:join([Folder, "kept", Name ++ Ending])) end,
    {ok, Release} = file:read_file(filename:join([Folder, "kept", "release"])),
    Same = string:trim(binary_to_list(Release)) =/= erlang:system_info(otp_release)
        orelse Kept(".core") =:= {ok, Text},
    case {Same, Kept(".report") =:= {ok, unicode:characters_to_binary(Report)}} of
        {true, true} -> passed;
        {_, _} -> {failed, {text_is_kept, Same, report, Report}}
    end.
