%% The script as it is called: its words, streams and statuses.
-module(command_tests).

-export([all/2]).

all(Folder, Work) ->
    Script = filename:join(Folder, "convert.escript"),
    Place = filename:join(Work, "a folder"),
    ok = filelib:ensure_dir(filename:join(Place, "file")),
    [ok = file:write_file(filename:join(Place, Name), Text) || {Name, Text} <- files()],
    [{"command: " ++ Title, outcome(Wanted, run(Script, Place, Words))} || {Title, Words, Wanted} <- cases()].

files() ->
    [{"good.erl", "-module(good).\n-export([main/0, other/0]).\nmain() -> self() ! x, receive x -> ok end.\nother() -> main().\n"},
     {"bad.erl", "-module(bad).\n-export([main/0]).\nmain() -> {1.5, f(2)}.\nf(X) ->\n  os:putenv(X, X).\n"},
     {"unused.erl", "-module(unused).\n-export([main/0]).\nmain() -> ok.\nf() -> receive X when X > 1.5 -> X end.\n"},
     {"none.erl", "-module(none).\n-export([none/0, other/0]).\nnone() -> ok.\nother() -> ok.\n"},
     {"exported.erl", "-module(exported).\n-export([main/0, go/0, by_name/1, called/0, as_fun/1, test/0]).\n"
                      "main() -> spawn(?MODULE, by_name, [1]), ?MODULE:called().\nby_name(_) -> ok.\ncalled() -> lists:foreach(fun ?MODULE:as_fun/1, [1]).\n"
                      "as_fun(_) -> ok.\ngo() -> ok.\ntest() -> eunit:test(?MODULE), {1.5, go()}.\n"},
     {"computed.erl", "-module(computed).\n-export([main/0, f/0, g/1, test/0]).\nmain() -> start(f).\nstart(F) -> spawn(?MODULE, F, []).\n"
                      "f() -> ok.\ng(X) -> {X, 1.5}.\ntest() -> {1.5, f()}.\n"},
     {"tested.erl", "-module(tested).\n-include_lib(\"eunit/include/eunit.hrl\").\n"
                    "last_test() -> ?assertEqual(1, one()).\nmade_test_() -> [?_assert(true)].\none() -> 1.\nother_test(X) -> X.\nfirst_test() -> ok.\ntest_one() -> ok.\n"},
     {"guarded.erl", "-module(guarded).\n-export([main/0]).\nmain() -> f(1).\nf(X) when X =:= get(a) -> X.\n"},
     {"wrong.erl", "-module(wrong).\n-export([main/0]).\nmain() -> x(.\n"},
     {"warned.erl", "-module(warned).\n-export([main/0]).\n-compile(warnings_as_errors).\nmain() -> X = 1, ok.\n"},
     {"sleeper.erl", "-module(sleeper).\n-export([main/0]).\nmain() -> timer:sleep(1).\n"},
     {"timer.erl", "-module(timer).\n-export([sleep/1]).\nsleep(X) -> {own, X}.\n"},
     {"unbound.erl", "-module(unbound).\n-export([main/0]).\nmain() -> X.\n"},
     {"with.erl", "-module(with).\n-export([main/0]).\n-include(\"part.hrl\").\nmain() -> [part(), ?WORD].\n"},
     {"part.hrl", "\n\npart() ->\n  self() ! part.\n"},
     {"part_refused.erl", "-module(part_refused).\n-export([main/0]).\n-include(\"refused.hrl\").\nmain() -> part().\n"},
     {"long.erl", ["-module(long).\n-export([main/0]).\nmain() ->\n", [["self() ! ", N, ", receive ", N, " -> ok end,\n"] || I <- lists:seq(1, 340), N <- [integer_to_list(I)]], "ok.\n"]},
     {"large.erl", ["-module(large).\n-export([main/0]).\nmain() -> \"", lists:duplicate(300000, $x), "\".\n"]},
     {"refused.hrl", "\n\npart() ->\n  os:getenv(\"PART\").\n"}].

%% {Status, what standard output has to have in it (or none), standard error}
cases() ->
    Usage = "usage: convert.escript FILE.erl|FILE.beam [FILE|FOLDER ..] [-pa FOLDER] [--entry [m:]f/0] [--after-timeout MS] [--applications N] [--strict] [--tests] [--notes]"
            " [--doubts FILE] [--places FILE] [--env APPLICATION.KEY=TERM] [-I DIR] [-D NAME[=VALUE]]\n",
    [{"a module", "good.erl", {0, "module 'good' ['main'/0]", ""}},
     {"the tests of a module", "tested.erl --tests", {0, "last_test\nmade_test_\nfirst_test\n", ""}},
     {"a module without tests", "good.erl --tests", {0, "", ""}},
     {"tests of a wrong source", "unbound.erl --tests", {2, none, "unbound.erl:3:11: variable 'X' is unbound\n"}},
     {"a test that is explored", "tested.erl --entry last_test/0", {0, "'main'/0 =\n  fun () ->\n    apply 'last_test'/0()", ""}},
     {"an entry", "good.erl --entry other/0", {0, "'main'/0 =\n  fun () ->\n    apply 'other'/0()", ""}},
     {"an entry with the name none", "none.erl --entry none/0", {0, "'main'/0 =\n  fun () ->\n    apply 'none'/0()", ""}},
     {"doubts in a file", "good.erl --doubts doubts", {0, "module 'good' ['main'/0]", ""}},
     {"doubts in a folder that is not there", "good.erl --doubts none/doubts", {2, none, "none/doubts cannot be written\n"}},
     {"places in a file", "good.erl --places places", {0, "module 'good' ['main'/0]", ""}},
     {"places in a folder that is not there", "good.erl --places none/places", {2, none, "none/places cannot be written\n"}},
     {"the source's main is another then", "--entry other/0 good.erl", {0, "'main of the module'/0 =", ""}},
     {"what nothing comes to", "unused.erl --notes", {0, "module 'unused' ['main'/0]\n    attributes []\n'main'/0 =\n  fun () ->\n    'ok'\nend", ""}},
     {"an exported function that nothing reaches", "exported.erl --notes", {0, "module 'exported' ['as_fun'/1,'by_name'/1,'called'/0,'main'/0]\n", "note: functions are tuples here: they sort among tuples, element/2 and tuple_size/1 take them, and two of one place and the same values are equal\n"}},
     {"the same from an entry", "exported.erl --entry go/0", {0, "module 'exported' ['go'/0]\n    attributes []\n'go'/0 =\n  fun () ->\n    'ok'\n'main'/0 =\n  fun () ->\n    apply 'go'/0()\nend", ""}},
     {"an entry that is not read", "exported.erl --strict --entry test/0", {2, none, "exported.erl:8: eunit:test/1 is not known here (in test/0)\nexported.erl:8: floats are not read: 1.5 (in test/0)\n"}},
     {"a process that begins with a computed function", "computed.erl --notes", {0, "<'computed','f',[]> when 'true' ->\n          apply 'f'/0()", ""}},
     {"the same, with nothing unread of the source", "computed.erl --strict", {0, "'apply begun'/3", ""}},
     {"lines of the source", "good.erl", {0, "-| [3] )", ""}},
     {"an include file's lines", "with.erl -D WORD=7", {0, "-| [4,{'file',[112,97,114,116,46,104,114,108]}] )", ""}},
     {"a macro", "with.erl -D WORD", {0, ",'true']", ""}},
     {"a macro with a value", "with.erl -D WORD=7 -I .", {0, ",7]", ""}},
     {"notes", "bad.erl --strict --notes", {2, none, "bad.erl:3: floats are not read: 1.5 (in main/0)\nbad.erl:5: os:putenv/2 is not known here (in f/1)\n"}},
     {"what is not read", "bad.erl", {0, "( apply 'not read'/1('not read: os:putenv/2 at bad.erl:5 (in f/1)') -| [5] )", ""}},
     {"what it is made of", "bad.erl", {0, "'not read'/1 =\n  fun (Table) ->\n    do catch call 'ets':'lookup'(Table,'none')\n       receive\n       after 'infinity' ->\n         'ok'\nend", ""}},
     {"where it is not read", "bad.erl --notes", {0, "'f'/1", "note: a process stops where it comes to a float at bad.erl:3 (in main/0)\nnote: a process stops where it comes to os:putenv/2 at bad.erl:5 (in f/1)\n"}},
     {"no stop where nothing is unread", "good.erl --notes", {0, "       after 'infinity' ->\n         'true' -| [3] )\nend\n", ""}},
     {"refusals", "bad.erl --strict", {2, none, "bad.erl:3: floats are not read: 1.5 (in main/0)\nbad.erl:5: os:putenv/2 is not known here (in f/1)\n"}},
     {"what is not read in an include file", "part_refused.erl", {0, "( apply 'not read'/1('not read: os:getenv/1 at refused.hrl:4 (in part/0)') -| [4,{'file',", ""}},
     {"refusals in an include file", "part_refused.erl --strict", {2, none, "refused.hrl:4: os:getenv/1 is not known here (in part/0)\n"}},
     {"no Erlang", "wrong.erl", {2, none, "wrong.erl:3:13: syntax error before: '.'\nwrong.erl:2:2: function main/0 undefined\n"}},
     {"the process dictionary in a guard", "guarded.erl", {2, none, "guarded.erl:4:17: illegal guard expression\n"}},
     {"warnings that are errors", "warned.erl", {2, none, "warned.erl:4:11: variable 'X' is unused\n"}},
     {"a second file that is not there", "good.erl absent.erl", {2, none, "absent.erl: no such file or directory\n"}},
     {"a module with the name of one of the library, given", "sleeper.erl timer.erl", {0, "'timer:sleep'/1 =\n  fun (_0) ->\n    {'own',_0}", ""}},
     {"no such variable", "unbound.erl", {2, none, "unbound.erl:3:11: variable 'X' is unbound\n"}},
     {"no such file", "absent.erl", {2, none, "absent.erl: no such file or directory\n"}},
     {"a function that is too long", "long.erl", {2, none, "long.erl:3: a function of 1023 levels is not read, only 1000: make several of it (in main/0)\n"}},
     {"a text that is too long", "large.erl", {2, none, "large.erl: a text of 1200073 bytes is not read, only 1048576\n"}},
     {"no words", "", {64, none, Usage}},
     {"an unknown word", "good.erl --other", {64, none, Usage}},
     {"two files", "good.erl none.erl", {0, "module 'good' ['main'/0]", ""}},
     {"two files of one module", "good.erl ./good.erl", {2, none, "two files have the module good: good.erl, ./good.erl\n"}},
     {"a folder", ". --entry none:none/0", {0, "module 'none' ['none'/0]", ""}},
     {"a folder, and no function in it", ". --entry absent:none/0", {2, none, "no file is given: --entry m:f/0 names a module of the folders\n"}},
     {"an entry that another module does not have", "good.erl --entry none:main/0", {2, none, "good.erl: no function none:main/0\n"}},
     {"a value that is no term", "good.erl --env a.b=[", {64, none, Usage}},
     {"an entry with arguments", "good.erl --entry main/1", {64, none, Usage}},
     {"a timeout that is no number", "good.erl --after-timeout soon", {64, none, Usage}}].

run(Script, Place, Words) ->
    Command = lists:flatten(io_lib:format("cd '~ts' && escript '~ts' ~ts > out 2> err; echo $?", [Place, Script, Words])),
    Status = list_to_integer(string:trim(os:cmd(Command))),
    {Status, text(filename:join(Place, "out")), text(filename:join(Place, "err"))}.

text(File) ->
    {ok, Bytes} = file:read_file(File),
    unicode:characters_to_list(Bytes).

outcome({Status, none, Errors}, {Status, "", Errors}) -> passed;
outcome({Status, Part, Errors}, {Status, Output, Errors}) when is_list(Part) ->
    case string:find(Output, Part) of
        nomatch -> {failed, {not_there, Part, Output}};
        _ -> passed
    end;
outcome(Wanted, Found) -> {failed, {wanted, Wanted, found, Found}}.
