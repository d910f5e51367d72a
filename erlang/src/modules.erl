%% The modules that a program may be made of: the first file, which names the Core module; those that are given with it or
%% lie beside it, or in a folder of compiled ones; and of OTP the behaviours and what holds data. A module is read where one
%% of its functions is asked for, from its source, or from the abstract code that a compiled one keeps.
-module(modules).

-export([open/5, main/1, file/1, exports/2, functions/2, definition/3, place/3, origin/2, is_given/2]).
-export([environment/1]).

-include("core.hrl").

%% Of OTP's modules these are taken as they are installed; none of them asks the machine for what is not read on most paths.
-define(OTP, [gen, gen_event, gen_fsm, gen_server, gen_statem, pg, proc_lib, supervisor, supervisor_bridge, sys,
              array, calendar, dict, digraph, digraph_utils, gb_sets, gb_trees, lists, maps, orddict, ordsets, proplists, queue,
              sets, sofs, string]).

%%   main, file   the first module, and its file
%%   files        the file of each module that is offered
%%   given        those that were named by themselves, not by their folder
%%   words        options for the compiler
%%   loaded       what was read: a module record for each, with its functions, Name => {Place among them, Definition}
-record(modules, {main, file, files, given, words, loaded = #{}}).
-record(module, {exports, functions}).

%% Files and folders in their order, folders of compiled modules, options for the compiler, and the module that is named
%% with the function to begin with, which the first one is where no file is given. Those of which functions are here
%% already (Taken, and OTP's above) are offered by a file alone, not by its folder. {ok, whether a function runs when the
%% first module is loaded, Modules}, or {error, Lines}.
open(FilesAndFolders, Compiled, Words, Named, Taken) ->
    try
        %% parse transforms, and -include_lib
        ok = code:add_pathsz(Compiled),
        {Folders, Given} = lists:partition(fun filelib:is_dir/1, FilesAndFolders),
        lists:foreach(fun there/1, Given),
        once(Given),
        Offered = lists:append([in_folder(D, [".erl", ".beam"]) || D <- Folders] ++ [in_folder(D, [".beam"]) || D <- Compiled]),
        File = first(Given, Named, Offered),
        Found = Offered ++ in_folder(filename:dirname(File), [".erl", ".beam"]),
        Main = module_of(File),
        Known = lists:reverse([{M, F} || {M, F} <- Found, not lists:member(M, ?OTP ++ Taken)]),
        Files = maps:merge(maps:from_list(Known), maps:from_list([{module_of(F), F} || F <- Given])),
        {RunsWhenLoaded, Module} = load(Main, File, Words),
        {ok, RunsWhenLoaded, #modules{main = Main, file = File, files = Files, given = [module_of(F) || F <- Given], words = Words,
                                      loaded = #{Main => Module}}}
    catch throw:{unreadable, Lines} -> {error, Lines}
    end.

first([File | _], _, _) -> File;
first([], Named, Offered) ->
    case lists:keyfind(Named, 1, Offered) of
        {_, File} -> File;
        false -> throw({unreadable, "no file is given: --entry m:f/0 names a module of the folders\n"})
    end.

%% What the application files beside compiled modules set: [{Application, Key, Value}].
environment(Folders) ->
    [{Application, Key, Value} || Folder <- Folders, File <- lists:sort(filelib:wildcard(filename:join(Folder, "*.app"))),
                                  {ok, [{application, Application, Words}]} <- [file:consult(File)],
                                  {env, Pairs} <- Words, {Key, Value} <- Pairs].

module_of(File) -> list_to_atom(filename:basename(filename:rootname(File))).

there(File) ->
    case file:read_file_info(File) of
        {ok, _} -> ok;
        {error, Why} -> throw({unreadable, io_lib:format("~ts: ~ts~n", [File, file:format_error(Why)])})
    end.

once(Given) ->
    Names = [module_of(File) || File <- Given],
    case Names -- lists:usort(Names) of
        [] -> ok;
        [Twice | _] ->
            Files = lists:join(", ", [File || File <- Given, module_of(File) =:= Twice]),
            throw({unreadable, io_lib:format("two files have the module ~ts: ~ts~n", [Twice, Files])})
    end.

%% The modules of a folder, each once: the first of these endings that there is.
in_folder(Folder, Endings) ->
    Files = [File || Ending <- Endings, File <- lists:sort(filelib:wildcard(filename:join(Folder, "*" ++ Ending)))],
    lists:foldr(fun(File, Sum) -> lists:keystore(module_of(File), 1, Sum, {module_of(File), File}) end, [], Files).

main(#modules{main = Main}) -> Main.
file(#modules{file = File}) -> File.

%% Whether a module was named by itself: then its functions are taken and not those of the library.
is_given(Module, #modules{given = Given}) -> lists:member(Module, Given).

%% Where its functions come from.
origin(Module, #modules{files = Files}) when is_map_key(Module, Files) -> source;
origin(_, _) -> otp.

%% {The functions that a module exports, or none where it is not known, Modules}.
exports(Module, Modules) ->
    case loaded(Module, Modules) of
        {#module{exports = Exports}, Modules1} -> {Exports, Modules1};
        none -> {none, Modules}
    end.

%% The functions of a module that was read, in the order of its source.
functions(Module, #modules{loaded = Loaded}) ->
    #module{functions = Functions} = map_get(Module, Loaded),
    [Name || {_, Name} <- lists:sort([{Place, Name} || {Name, {Place, _}} <- maps:to_list(Functions)])].

%% {The definition of a function, or none, Modules}.
definition(Module, Name, Modules) ->
    case loaded(Module, Modules) of
        {#module{functions = #{Name := {_, Definition}}}, Modules1} -> {Definition, Modules1};
        {_, Modules1} -> {none, Modules1};
        none -> {none, Modules}
    end.

%% The place of a function that was read, in the order of its module.
place(Module, Name, #modules{loaded = Loaded}) ->
    #module{functions = #{Name := {Place, _}}} = map_get(Module, Loaded),
    Place.

loaded(Module, #modules{loaded = Loaded} = Modules) when is_map_key(Module, Loaded) -> {map_get(Module, Loaded), Modules};
loaded(Module, #modules{files = Files, words = Words} = Modules) ->
    case {Files, lists:member(Module, ?OTP) andalso code:which(Module)} of
        {#{Module := File}, _} -> keep(Module, load(Module, File, Words), Modules);
        {_, File} when is_list(File) -> keep(Module, load(Module, File, []), Modules);
        _ -> none
    end.

keep(Name, {_, Module}, #modules{loaded = Loaded} = Modules) -> {Module, Modules#modules{loaded = Loaded#{Name => Module}}}.

load(Name, File, Words) ->
    case source_module:load(File, Words) of
        {ok, Name, RunsWhenLoaded, Exports, Definitions} ->
            Functions = maps:from_list([{D#definition.name, {I, D}} || {I, D} <- lists:enumerate(Definitions)]),
            {RunsWhenLoaded, #module{exports = Exports, functions = Functions}};
        {ok, Other, _, _, _} -> throw({unreadable, io_lib:format("~ts: it has the module ~ts~n", [File, Other])});
        {error, Lines} -> throw({unreadable, Lines})
    end.
