import type { Message } from './library.js';

/** A warning or an error as data. `kind` is 'missing entry', 'repeated entry', 'missing database', 'repeated database', 'missing style', 'missing auxiliary file',
 * 'cross reference', or else where it was met: 'document', 'database', 'style', 'execution', 'run'. */
export interface MessageData {
  severity: 'warning' | 'error';
  kind: string;
  text: string;
  file?: string;
  line?: number;
  function?: string;
  entry?: string;
}

export function kindOf(message: Pick<Message, 'met' | 'text'>): { kind: string; entry?: string; file?: string };
export function asData(message: Message): MessageData;
/** The messages of a run that are warnings or errors, as data. */
export function dataOf(messages: Message[]): MessageData[];
/** Whether something is missing, or there twice. */
export function isStrictlyWrong(data: MessageData[]): boolean;
/** A line of JSON, with a line end. */
export function lineOf(data: object): string;
