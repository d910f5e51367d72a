%% What a conversion has to say besides its text: refusals, notes, and doubts about what is explored of it. It also
%% hands out numbers for new names.
-module(ledger).

-export([new/1, is_strict/1, within/2, refuse/4, refuse_file/3, note/3, doubt/3, number/1, refusals/1, notes/1, doubts/1]).

-record(ledger, {strict, origin = source, refusals = [], notes = [], doubts = [], count = 0}).

%% Strict says whether what is not read of the source is refused where it is written, and not where it is reached.
new(Strict) -> #ledger{strict = Strict}.

is_strict(#ledger{strict = Strict, origin = Origin}) -> Strict andalso Origin =:= source.

%% The ledger for what comes from there.
within(Origin, L) -> L#ledger{origin = Origin}.

%% FILE:LINE: text (in f/1)
refuse({File, Line}, Home, Text, #ledger{refusals = Rs} = L) ->
    L#ledger{refusals = [{File, Line, io_lib:format("~ts (in ~ts)", [Text, Home])} | Rs]}.

%% FILE: text, of the whole file
refuse_file(File, Text, #ledger{refusals = Rs} = L) -> L#ledger{refusals = [{File, 0, Text} | Rs]}.

%% What is noted is noted of the source alone.
note(Format, Arguments, #ledger{origin = source, notes = Ns} = L) ->
    L#ledger{notes = [lists:flatten(io_lib:format(Format, Arguments)) | Ns]};
note(_, _, L) -> L.

%% Text says what makes a verdict doubtful, and at which place.
doubt({File, Line}, Text, #ledger{doubts = Ds} = L) -> L#ledger{doubts = [{File, Line, Text} | Ds]}.

number(#ledger{count = N} = L) -> {N + 1, L#ledger{count = N + 1}}.

%% Lines in the order of files, lines and texts, each once.
refusals(#ledger{refusals = Rs}) ->
    [line(R) || R <- lists:usort([{F, N, lists:flatten(T)} || {F, N, T} <- Rs])].

line({File, 0, Text}) -> io_lib:format("~ts: ~ts~n", [File, Text]);
line({File, Line, Text}) -> io_lib:format("~ts:~w: ~ts~n", [File, Line, Text]).

notes(#ledger{notes = Ns}) -> [io_lib:format("note: ~ts~n", [N]) || N <- lists:usort(Ns)].

%% In the order of files, lines and texts, each once.
doubts(#ledger{doubts = Ds}) -> [io_lib:format("~ts~n", [T]) || {_, _, T} <- lists:usort([{F, N, lists:flatten(T)} || {F, N, T} <- Ds])].
