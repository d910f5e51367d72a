%% @doc What `explore' of rebar.config says: which files are explored, each with its words, and by which command. What is
%% wrong is thrown as `{wrong, Lines}', a line for each thing.
-module(rebar3_explore_settings).

-export([read/1, command/2, items/3]).
-export_type([settings/0, item/0]).

-type pattern() :: string() | {string(), [string()]}.
-type settings() :: #{programs := [pattern()] | default, eunit := [pattern()], options := [string()],
                      junit := string() | none, command := string() | none}.
%% A file below the folder of the project, what it is, and the words for it.
-type item() :: {program | eunit, file:filename(), [string()]}.

-define(PROGRAMS, "explored/*.erl").
%% What prints something else than a report, or is given by this plugin.
-define(TAKEN, ["--eunit", "--junit", "--raw", "--core", "--replay", "--help", "-h", "--version"]).

%% The first of several entries counts, as rebar3 has it: that of a profile is before the others.
-spec read(term()) -> settings().
read(Entries) ->
    right(wrong_entries(Entries)),
    Value = fun(Key, Default) -> proplists:get_value(Key, Entries, Default) end,
    #{programs => Value(programs, default), eunit => Value(eunit, []), options => Value(options, []),
      junit => Value(junit, none), command => Value(command, none)}.

right([]) -> ok;
right(Lines) -> throw({wrong, Lines}).

%% -- what is wrong with the entries

wrong_entries(Entries) ->
    case is_list(Entries) andalso not (Entries =/= [] andalso is_text(Entries)) of
        true -> [Line || Entry <- Entries, Line <- wrong_entry(Entry)];
        false -> [said("explore is a list of entries, as {explore, [{programs, [\"explored/*.erl\"]}]}")]
    end.

wrong_entry({Key, Value}) ->
    case takes(Key) of
        nothing -> [said(["explore has no entry ", written(Key), "; it has programs, eunit, options, junit and command"])];
        {Kind, What} -> [said([written(Key), " of explore takes ", What]) || not fits(Kind, Value)] ++ wrong_words(Kind, Value)
    end;
wrong_entry(Entry) -> [said(["an entry of explore is a pair, as {junit, \"found\"}, and not ", written(Entry)])].

takes(Key) when Key =:= programs; Key =:= eunit ->
    {patterns, "a list of patterns of files in the project, as [\"explored/*.erl\"], or with words of its own, "
               "[{\"explored/pool.erl\", [\"--normal\", \"killed\"]}]"};
takes(options) -> {words, "a list of words for ./explore, as [\"--after-timeout\", \"5000\"]"};
takes(junit) -> {name, "the name of a folder, as \"found\""};
takes(command) -> {name, "the name of a file, as \"kolzhavid/explore\""};
takes(_) -> nothing.

fits(name, Value) -> is_text(Value);
fits(words, Value) -> is_list(Value) andalso lists:all(fun is_text/1, Value);
fits(patterns, Value) -> is_list(Value) andalso lists:all(fun is_pattern/1, Value).

is_text(Value) -> Value =/= [] andalso io_lib:printable_unicode_list(Value).

is_pattern({Pattern, Words}) -> is_pattern(Pattern) andalso fits(words, Words);
is_pattern(Pattern) -> is_text(Pattern) andalso filename:pathtype(Pattern) =:= relative andalso not lists:member("..", filename:split(Pattern)).

%% Words that do not go with this plugin.
wrong_words(Kind, Value) ->
    [said([Word, " is no word for rebar3 explore"]) || fits(Kind, Value), Word <- words_in(Kind, Value), is_taken(Word)].

words_in(words, Value) -> Value;
words_in(patterns, Value) -> [Word || {_, Words} <- Value, Word <- Words];
words_in(name, _) -> [].

is_taken(Word) -> lists:member(hd(string:split(Word, "=")), ?TAKEN).

said(Text) -> ["rebar.config: ", Text].

written(Term) -> io_lib:format("~0tp", [Term]).

%% -- the command

%% The file of the command: as EXPLORE says, as rebar.config does, of the folder that this plugin is from, or on the PATH.
-spec command(settings(), file:filename()) -> file:filename().
command(#{command := Named}, Root) ->
    case {os:getenv("EXPLORE"), Named} of
        {Own, _} when Own =/= false, Own =/= "" -> there(filename:absname(Own), "the environment variable EXPLORE");
        {_, none} -> found();
        {_, Named} -> there(filename:absname(Named, Root), "command of explore in rebar.config")
    end.

there(File, Who) ->
    case can_run(File) of
        true -> File;
        false -> throw({wrong, [["there is no command ", File, ", which ", Who, " names"]]})
    end.

found() ->
    Own = own(),
    case {can_run(Own), os:find_executable("explore")} of
        {true, _} -> Own;
        {false, false} -> throw({wrong, ["explore was not found: {explore, [{command, \"kolzhavid/explore\"}]} in rebar.config says where it is"]});
        {false, File} -> File
    end.

%% This file is erlang/rebar3/src/rebar3_explore_settings.erl there. Most often a link in _checkouts leads to erlang/rebar3,
%% so it is the system that has to go up from there: the name is left as it is.
own() ->
    Source = filename:absname(proplists:get_value(source, ?MODULE:module_info(compile), "")),
    filename:join([filename:dirname(Source), "..", "..", "..", "explore"]).

%% (of a name that begins at the root)
can_run(File) -> os:find_executable(File) =/= false.

%% -- the files

%% The files that are explored, programs first; of those that have these names, where names are given.
-spec items(settings(), file:filename(), [string()]) -> [item()].
items(Settings, Root, Names) ->
    Items = all_items(Settings, Root),
    right([[Name, " is none of the programs and tests of explore in rebar.config"] || Name <- Names, named(Name, Items) =:= []]),
    case Names of
        [] -> Items;
        _ -> [Item || Item <- Items, lists:any(fun(Name) -> is_named(Name, Item) end, Names)]
    end.

all_items(#{programs := default, eunit := Tests} = Settings, Root) ->
    case {filelib:wildcard(?PROGRAMS, Root), Tests} of
        {[], []} -> throw({wrong, ["there is nothing to explore: no file is " ?PROGRAMS ", and explore in rebar.config names no other"]});
        {[], _} -> all_items(Settings#{programs := []}, Root);
        _ -> all_items(Settings#{programs := [?PROGRAMS]}, Root)
    end;
all_items(#{programs := Programs, eunit := Tests} = Settings, Root) ->
    right([said(["no file is ", Pattern]) || {Pattern, _} <- with_words(Programs ++ Tests), filelib:wildcard(Pattern, Root) =:= []]),
    Items = [{Kind, File, words(Kind, File, Words, Settings)}
             || {Kind, Patterns} <- [{program, Programs}, {eunit, Tests}], {File, Words} <- files(with_words(Patterns), Root)],
    right(["there is nothing to explore: explore in rebar.config names no file" || Items =:= []]),
    Items.

with_words(Patterns) -> [case Pattern of {_, _} -> Pattern; _ -> {Pattern, []} end || Pattern <- Patterns].

%% Each file once, with the words of all patterns that it has.
files(Patterns, Root) ->
    Found = [{File, Words} || {Pattern, Words} <- Patterns, File <- filelib:wildcard(Pattern, Root)],
    [{File, lists:append([Words || {Other, Words} <- Found, Other =:= File])} || File <- lists:usort([File || {File, _} <- Found])].

words(Kind, File, Words, #{options := Options, junit := Junit}) ->
    ["--eunit" || Kind =:= eunit] ++ Options ++ Words
        ++ lists:append([["--junit", filename:join(Junit, filename:rootname(File) ++ ".xml")] || Junit =/= none]).

named(Name, Items) -> [Item || Item <- Items, is_named(Name, Item)].

%% A file is named as it is, or by its last part, with `.erl' or without.
is_named(Name, {_, File, _}) ->
    Last = filename:basename(File),
    lists:member(Name, [File, "./" ++ File, Last, filename:rootname(Last)]).
