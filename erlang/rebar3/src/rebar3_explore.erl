%% @doc A plugin of rebar3, `rebar3 explore': explores the programs and the tests of a project by `./explore' of Kolzhavid,
%% one after the other, with the compiled modules of the project and of what it depends on. docs/CI.md says how it is used.
-module(rebar3_explore).

-export([init/1, do/1, format_error/1]).

-spec init(rebar_state:t()) -> {ok, rebar_state:t()}.
init(State) ->
    Provider = providers:create([{name, explore},
                                 {module, ?MODULE},
                                 {bare, true},
                                 {deps, [compile]},
                                 {profiles, [test]},
                                 {example, "rebar3 explore"},
                                 {short_desc, "Explore every order of events of small concurrent programs."},
                                 {desc, description()},
                                 {opts, [{file, undefined, undefined, string, "Explore only these of the files."}]}]),
    {ok, rebar_state:add_provider(State, Provider)}.

-spec do(rebar_state:t()) -> {ok, rebar_state:t()} | {error, {module(), [iodata()]}}.
do(State) ->
    Words = rebar_state:command_args(State),
    case [Word || "-" ++ _ = Word <- Words] of
        [] -> explored(State, Words);
        _ -> shown(State)
    end.

%% Reasons are lines for people.
-spec format_error([iodata()]) -> iodata().
format_error(Lines) -> lists:join("\n", Lines).

%% The only options that rebar3 lets through ask for help, or for its version.
shown(State) ->
    io:format(description() ++ "~n", []),
    {ok, State}.

explored(State, Names) ->
    Root = rebar_state:dir(State),
    try
        Settings = rebar3_explore_settings:read(rebar_state:get(State, explore, [])),
        Command = rebar3_explore_settings:command(Settings, Root),
        Items = rebar3_explore_settings:items(Settings, Root, Names),
        told(State, rebar3_explore_run:all(Command, Root, folders(State), Items))
    catch
        throw:{wrong, Lines} -> {error, {?MODULE, Lines}}
    end.

told(State, []) -> {ok, State};
told(_, Unclean) -> {error, {?MODULE, ["These have errors, or were not explored to their end:" | ["  " ++ File || File <- Unclean]]}}.

%% Where the compiled modules are: those of the project, and of what it depends on.
folders(State) ->
    Applications = rebar_state:project_apps(State) ++ rebar_state:all_deps(State),
    [Folder || Folder <- lists:usort(lists:map(fun rebar_app_info:ebin_dir/1, Applications)), filelib:is_dir(Folder)].

%% (rebar3 takes this for a format)
description() ->
    "Explores every order of events of small concurrent programs, and shows each error\n"
    "that some order shows. In rebar.config, each of these may be left out:\n"
    "\n"
    "  {explore, [\n"
    "    {programs, [\"explored/*.erl\"]},            % programs, each with a main/0\n"
    "    {eunit, [\"test/*_tests.erl\"]},             % modules whose tests are explored\n"
    "    {options, [\"--after-timeout\", \"5000\"]},    % words for each ./explore\n"
    "    {junit, \"found\"},                          % a folder for JUnit XML files\n"
    "    {command, \"kolzhavid/explore\"}             % where ./explore is\n"
    "  ]}.\n"
    "\n"
    "A pattern may have words of its own: {\"explored/pool.erl\", [\"--normal\", \"killed\"]}.\n"
    "Without programs these are explored/*.erl. Without command it is the one that the\n"
    "environment variable EXPLORE names, or that of the folder which this plugin is\n"
    "from, or explore on the PATH. Names of files after `rebar3 explore` say which of\n"
    "them to explore. docs/CI.md of Kolzhavid says more.\n".
