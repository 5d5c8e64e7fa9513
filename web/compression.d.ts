// The browsers' streams that the library of TypeScript 4.8 doesn't have yet.
declare var CompressionStream: { new (form: "deflate-raw"): GenericTransformStream };
declare var DecompressionStream: { new (form: "deflate-raw"): GenericTransformStream };
