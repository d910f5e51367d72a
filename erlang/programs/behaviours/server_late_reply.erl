%% A server asks another one, and may give up: an answer that comes too late is no message for it, nor for anybody else.
%% words: --after-timeout 5000
%% error: P ends {'result','answer',['other']}
%% error: P ends {'result','gave_up',['other']}
%% error: P.1 ends {'result','answer',['other']}
%% error: P.1 ends {'result','gave_up',['other']}
%% error: P.3 ends {'result','answer',['other']}
%% error: P.3 ends {'result','gave_up',['other']}
-module(server_late_reply).
-behaviour(gen_server).
-export([main/0, init/1, handle_call/3, handle_cast/2, handle_info/2]).

main() ->
    {ok, Slow} = gen_server:start_link(?MODULE, slow, []),
    {ok, Asks} = gen_server:start_link(?MODULE, {asks, Slow, []}, []),
    Answer = gen_server:call(Asks, ask),
    Asks ! other,
    answer = gen_server:call(Slow, ask),
    exit({result, Answer, gen_server:call(Asks, messages)}).

init(S) -> {ok, S}.

handle_call(ask, _, slow) ->
    timer:sleep(1),
    {reply, answer, slow};
handle_call(ask, _, {asks, Slow, _} = S) ->
    {reply, try gen_server:call(Slow, ask, 2) catch exit:{timeout, _} -> gave_up end, S};
handle_call(messages, _, {asks, _, Messages} = S) -> {reply, Messages, S}.

handle_cast(_, S) -> {noreply, S}.

handle_info(Message, {asks, Slow, Messages}) -> {noreply, {asks, Slow, [Message | Messages]}}.
