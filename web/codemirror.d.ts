// What the page uses of CodeMirror 5, which Debian's package has without types.
declare module "codemirror/lib/codemirror.js" {
    export interface Position { line: number; ch: number }
    export interface Stream {
        string: string;
        pos: number;
        sol(): boolean;
        eatSpace(): boolean;
        next(): string | undefined;
        skipToEnd(): void;
    }
    export interface Mode { token(stream: Stream, state: any): string | null; startState?(): any; lineComment?: string }
    export interface LineHandle { text: string }
    export interface Mark { clear(): void }
    export interface Change { text: string[]; origin?: string; update?(from?: Position, to?: Position, text?: string[]): void }
    export interface Hints { list: string[]; from: Position; to: Position }
    export interface Scrolled { left: number; top: number; clientWidth: number; clientHeight: number; height: number }

    class CodeMirror {
        static defineMode(name: string, mode: () => Mode): void;
        getInputField(): HTMLElement;
        getWrapperElement(): HTMLElement;
        getValue(): string;
        setValue(text: string): void;
        clearHistory(): void;
        getLine(line: number): string | undefined;
        lastLine(): number;
        eachLine(act: (line: LineHandle) => boolean | void): void;
        getLineHandle(line: number): LineHandle | undefined;
        getLineNumber(line: LineHandle): number | null;
        getCursor(end?: string): Position;
        getSelection(): string;
        setSelection(anchor: Position, head: Position): void;
        replaceSelection(text: string, select?: string, origin?: string): void;
        indexFromPos(at: Position): number;
        posFromIndex(index: number): Position;
        lineAtHeight(y: number, mode: string): number;
        heightAtLine(line: number, mode: string): number;
        defaultTextHeight(): number;
        getScrollInfo(): Scrolled;
        scrollTo(x: number | null, y: number): void;
        scrollIntoView(at: Position | null): void;
        addOverlay(mode: Mode): void;
        removeOverlay(mode: Mode): void;
        setGutterMarker(line: LineHandle, gutter: string, mark: HTMLElement | null): void;
        addLineClass(line: LineHandle, where: string, name: string): void;
        removeLineClass(line: LineHandle, where: string, name: string): void;
        markText(from: Position, to: Position, options: { className: string }): Mark;
        operation(act: () => void): void;
        setOption(name: string, value: unknown): void;
        getOption(name: string): unknown;
        defaultCharWidth(): number;
        addKeyMap(keys: Record<string, () => void>): void;
        showHint(options: object): void;
        focus(): void;
        refresh(): void;
        on(event: "beforeChange", act: (cm: CodeMirror, change: Change) => void): void;
        on(event: "changes", act: (cm: CodeMirror, changes: Change[]) => void): void;
        on(event: "gutterClick", act: (cm: CodeMirror, line: number) => void): void;
        on(event: "scroll", act: () => void): void;
        on(event: "renderLine", act: (cm: CodeMirror, line: LineHandle, element: HTMLElement) => void): void;
    }
    function CodeMirror(place: HTMLElement, options: object): CodeMirror;
    export default CodeMirror;
}
declare module "codemirror/addon/comment/comment.js" {}
declare module "codemirror/addon/hint/show-hint.js" {}
