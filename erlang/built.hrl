%% What is compiled of this folder is kept in a folder that is named for the release of Erlang/OTP and for the sum of all
%% sources: in out/ here, or where that cannot be written, below $XDG_CACHE_HOME (without that, ~/.cache). So nothing that
%% was compiled is taken for that of other sources, or of another release.

%% The folder, in which this part is compiled first where it is not there: Compile(Work) puts its files into a folder.
built(Here, Part, Compile) ->
    Folder = filename:join(out(filename:join(Here, "out"), Here), "otp" ++ erlang:system_info(otp_release) ++ "-" ++ sum(Here)),
    Done = filename:join(Folder, Part ++ ".done"),
    filelib:is_regular(Done) orelse compile_into(Folder, Done, Compile),
    true = code:add_patha(Folder),
    Folder.

%% (not each script that has this file calls these)
-compile({nowarn_unused_function, [load/3, is_of_report/1]}).

%% Loads these modules, and all of the folder whose names are taken, by as many threads as there are processors, and not each
%% where it is first called. One that another release of Erlang/OTP does not have changes nothing.
load(Folder, Takes, Others) ->
    Names = [filename:basename(File, ".beam") || File <- filelib:wildcard(filename:join(Folder, "*.beam"))],
    code:ensure_modules_loaded([list_to_atom(Name) || Name <- Names, Takes(Name)] ++ Others).

is_of_report(Name) -> lists:prefix("report_", Name).

out(Own, Here) ->
    case can_write(Own) of
        true -> Own;
        false -> filename:join([cache(), "kolzhavid", integer_to_list(erlang:phash2(Here))])
    end.

%% (element 4 of a #file_info{} is the access; its file of definitions is in no package that is needed here)
can_write(Folder) ->
    filelib:ensure_dir(filename:join(Folder, "file")) =:= ok andalso
        case file:read_file_info(Folder) of
            {ok, Info} -> lists:member(element(4, Info), [write, read_write]);
            {error, _} -> false
        end.

cache() ->
    case os:getenv("XDG_CACHE_HOME") of
        [$/ | _] = Folder -> Folder;
        _ -> filename:join(os:getenv("HOME", "/tmp"), ".cache")
    end.

sum(Here) ->
    Files = lists:append([filelib:wildcard(filename:join(Here, Some)) || Some <- ["*.{escript,hrl}", "src/*.[eh]rl", "library/*.erl"]]),
    Texts = [[filename:basename(File), 0, integer_to_list(byte_size(Text)), 0, Text] || File <- Files, {ok, Text} <- [file:read_file(File)]],
    string:lowercase(binary_to_list(binary:encode_hex(erlang:md5(Texts)))).

%% It is compiled in a folder of its own, since two may compile at the same time; what says that it is done comes last.
compile_into(Folder, Done, Compile) ->
    Work = Folder ++ "." ++ os:getpid(),
    ok = filelib:ensure_dir(filename:join(Work, "file")),
    ok = filelib:ensure_dir(filename:join(Folder, "file")),
    forget(filename:dirname(Folder)),
    Compile(Work),
    {ok, Names} = file:list_dir(Work),
    [ok = file:rename(filename:join(Work, Name), filename:join(Folder, Name)) || Name <- Names],
    ok = file:del_dir(Work),
    ok = file:write_file(Done, "").

%% What was compiled of other sources more than a day ago goes.
forget(Out) ->
    Now = calendar:datetime_to_gregorian_seconds(calendar:local_time()),
    [file:del_dir_r(Folder) || Folder <- filelib:wildcard(filename:join(Out, "otp*")),
                               Now - calendar:datetime_to_gregorian_seconds(filelib:last_modified(Folder)) > 86400].
