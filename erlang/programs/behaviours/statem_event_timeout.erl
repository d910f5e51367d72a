%% An event timeout goes with the next event: what was typed is whole after a pause, or where the line ends.
%% words: --after-timeout 5000
%% error: P ends {'result',{1,['a']},['b']}
%% error: P ends {'result',['b','a'],{'whole',[]}}
%% error: P.1 ends {'result',{1,['a']},['b']}
%% error: P.1 ends {'result',['b','a'],{'whole',[]}}
-module(statem_event_timeout).
-behaviour(gen_statem).
-export([main/0, init/1, callback_mode/0, handle_event/4]).

main() ->
    {ok, Pid} = gen_statem:start_link(?MODULE, self(), []),
    gen_statem:cast(Pid, {key, a}),
    gen_statem:cast(Pid, {key, b}),
    exit({result, word(), word()}).

word() -> receive {word, Word} -> Word end.

callback_mode() -> handle_event_function.

init(Main) -> {ok, typing, {Main, []}}.

handle_event(cast, {key, b}, typing, {Main, Keys}) ->
    Main ! {word, [b | Keys]},
    {keep_state, {Main, []}, [{timeout, 0, whole}]};
handle_event(cast, {key, Key}, typing, {Main, Keys}) -> {keep_state, {Main, [Key | Keys]}, 1};
handle_event(timeout, What, typing, {Main, Keys}) ->
    Main ! {word, {What, Keys}},
    {keep_state, {Main, []}}.
