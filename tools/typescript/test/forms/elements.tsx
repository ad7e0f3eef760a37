export const a = <div className="b" {...c}>text // no comment {d /* none */}</div>, e = <></>, f = <G.H<I> />;
