//! Tree records from the original's syntax tree.

use crate::kinds::Node;
use crate::refusal::Refusal;
use crate::Call;
use quanta_ast::*;
use quanta_lexer::{Span, Token, TokenKind};
use quanta_parser::{parse, parse_expr, parse_item, parse_stmt, parse_type};

/// The records of a text with these tokens, children before parents, or one of refusals 12 to 22.
pub fn records(call: Call, text: &str, tokens: &[Token]) -> Result<Vec<[u32; 6]>, Refusal> {
    let mut writer = Writer {
        tokens,
        records: Vec::new(),
    };
    let read = match call {
        Call::Program => parse(text).map(|tree| writer.program(&tree)),
        Call::Item => parse_item(text).map(|tree| writer.item(&tree)),
        Call::Stmt => parse_stmt(text).map(|tree| writer.stmt(&tree)),
        Call::Expr => parse_expr(text).map(|tree| writer.expr(&tree)),
        Call::Type => parse_type(text).map(|tree| writer.ty(&tree)),
    };
    match read {
        Ok(()) => Ok(writer.records),
        Err(error) => Err(Refusal::from_parse(&error, tokens)),
    }
}

// The tree does not keep token numbers. They are found again in the token list:
// a keyword, name, literal or prefix operator at the span's start; an infix or
// assignment operator and a call's `(` as the first token behind the left part
// that is no `)`, since parentheses widen no span; `.` before the field's name;
// `:` behind the name; `of` behind the first number; `;` at the span's end; Eof last.
struct Writer<'a> {
    tokens: &'a [Token],
    records: Vec<[u32; 6]>,
}

impl Writer<'_> {
    fn push(&mut self, node: Node, flag: u32, own: usize, span: Span, children: usize) {
        let (start, end) = (span.start as u32, span.end as u32);
        self.records
            .push([node as u32, flag, own as u32, start, end, children as u32]);
    }

    // A record without flag whose own token starts its span.
    fn plain(&mut self, node: Node, span: Span, children: usize) {
        let own = self.token_at(span.start);
        self.push(node, 0, own, span, children);
    }

    // The first token that starts at or behind an offset.
    fn token_at(&self, offset: usize) -> usize {
        self.tokens
            .partition_point(|token| token.span.start < offset)
    }

    // The first token behind a left part that is no `)`.
    fn operator_behind(&self, left: Span) -> usize {
        let mut number = self.token_at(left.end);
        while self.tokens[number].kind == TokenKind::RParen {
            number += 1;
        }
        number
    }

    fn names(&mut self, names: &[Ident]) {
        for name in names {
            self.plain(Node::Name, name.span, 0);
        }
    }

    fn exprs(&mut self, exprs: &[Expr]) {
        for expr in exprs {
            self.expr(expr);
        }
    }

    fn program(&mut self, program: &Program) {
        for import in &program.imports {
            self.names(&import.names);
            self.plain(Node::Str, import.path.span, 0);
            self.plain(Node::Import, import.span, import.names.len() + 1);
        }
        for contract in &program.contracts {
            self.plain(Node::Name, contract.name.span, 0);
            for item in &contract.items {
                self.item(item);
            }
            self.plain(Node::Contract, contract.span, contract.items.len() + 1);
        }
        let children = program.imports.len() + program.contracts.len();
        self.push(
            Node::Program,
            0,
            self.tokens.len() - 1,
            program.span,
            children,
        );
    }

    fn item(&mut self, item: &Item) {
        match item {
            Item::Asset(asset) => {
                self.plain(Node::Name, asset.name.span, 0);
                self.plain(Node::Asset, asset.span, 1);
            }
            Item::State(state) => {
                for field in &state.fields {
                    self.field(field);
                }
                self.plain(Node::State, state.span, state.fields.len());
            }
            Item::Genesis(genesis) => {
                self.stmts(&genesis.body);
                self.plain(Node::Genesis, genesis.span, genesis.body.len());
            }
            Item::Invariant(invariant) => {
                self.expr(&invariant.expr);
                self.plain(Node::Invariant, invariant.span, 1);
            }
            Item::Event(event) => {
                self.plain(Node::Name, event.name.span, 0);
                self.params(&event.params);
                self.plain(Node::Event, event.span, 1 + event.params.len());
            }
            Item::Entry(entry) => self.entry(entry),
        }
    }

    fn field(&mut self, field: &FieldDecl) {
        self.plain(Node::Name, field.name.span, 0);
        self.ty(&field.ty);
        self.exprs(field.default.as_slice());
        let has_default = field.default.is_some();
        let flag = u32::from(field.meta) + 2 * u32::from(has_default);
        let colon = self.token_at(field.name.span.end);
        self.push(
            Node::Field,
            flag,
            colon,
            field.span,
            2 + usize::from(has_default),
        );
    }

    fn entry(&mut self, entry: &EntryDecl) {
        self.plain(Node::Name, entry.name.span, 0);
        self.params(&entry.params);
        for clause in &entry.clauses {
            self.clause(clause);
        }
        self.stmts(&entry.body);
        let parts = entry.params.len() + entry.clauses.len() + entry.body.len();
        self.plain(Node::Entry, entry.span, 1 + parts);
    }

    fn params(&mut self, params: &[Param]) {
        for param in params {
            self.plain(Node::Name, param.name.span, 0);
            self.ty(&param.ty);
            self.names(param.signed_by.as_slice());
            let is_signed = param.signed_by.is_some();
            let flag = u32::from(param.sealed) + 2 * u32::from(is_signed);
            let colon = self.token_at(param.name.span.end);
            self.push(
                Node::Param,
                flag,
                colon,
                param.span,
                2 + usize::from(is_signed),
            );
        }
    }

    fn clause(&mut self, clause: &Clause) {
        match clause {
            Clause::Writes { names, span } => self.name_clause(Node::Writes, names, *span),
            Clause::Reads { names, span } => self.name_clause(Node::Reads, names, *span),
            Clause::Conserves { asset, span } => {
                self.name_clause(Node::Conserves, std::slice::from_ref(asset), *span)
            }
            Clause::Mints { asset, span } => {
                self.name_clause(Node::Mints, std::slice::from_ref(asset), *span)
            }
            Clause::Burns { asset, span } => {
                self.name_clause(Node::Burns, std::slice::from_ref(asset), *span)
            }
            Clause::Limits { expr, span } => {
                self.expr(expr);
                self.plain(Node::Limits, *span, 1);
            }
            Clause::Denies { expr, span } => {
                self.expr(expr);
                self.plain(Node::Denies, *span, 1);
            }
            Clause::After { target, from, span } => self.after(target, from, *span),
        }
    }

    fn name_clause(&mut self, node: Node, names: &[Ident], span: Span) {
        self.names(names);
        self.plain(node, span, names.len());
    }

    fn after(&mut self, target: &AfterTarget, from: &Option<Expr>, span: Span) {
        let (is_duration, parts) = match target {
            AfterTarget::Duration(duration) => {
                self.plain(Node::Int, duration.value.span, 0);
                self.plain(Node::Name, duration.unit.span, 0);
                (true, 2)
            }
            AfterTarget::Expr(expr) => {
                self.expr(expr);
                (false, 1)
            }
        };
        self.exprs(from.as_slice());
        let flag = u32::from(from.is_some()) + 2 * u32::from(is_duration);
        let own = self.token_at(span.start);
        self.push(
            Node::After,
            flag,
            own,
            span,
            parts + usize::from(from.is_some()),
        );
    }

    fn ty(&mut self, ty: &Type) {
        for arg in &ty.args {
            match arg {
                GenericArg::Type(inner) => self.ty(inner),
                GenericArg::Int(int) => self.plain(Node::Int, int.span, 0),
                GenericArg::MofN { m, n, span } => {
                    self.plain(Node::Int, m.span, 0);
                    self.plain(Node::Int, n.span, 0);
                    self.push(Node::MofN, 0, self.token_at(m.span.end), *span, 2);
                }
            }
        }
        self.plain(Node::Type, ty.span, ty.args.len());
    }

    fn stmts(&mut self, stmts: &[Stmt]) {
        for stmt in stmts {
            self.stmt(stmt);
        }
    }

    fn stmt(&mut self, stmt: &Stmt) {
        match stmt {
            Stmt::Guard { expr, span } => {
                self.expr(expr);
                self.plain(Node::Guard, *span, 1);
            }
            Stmt::Let { name, value, span } => {
                self.plain(Node::Name, name.span, 0);
                self.expr(value);
                self.plain(Node::Let, *span, 2);
            }
            Stmt::Emit { name, args, span } => {
                self.plain(Node::Name, name.span, 0);
                self.exprs(args);
                self.plain(Node::Emit, *span, 1 + args.len());
            }
            Stmt::Assign {
                target,
                op,
                value,
                span,
            } => {
                self.expr(target);
                self.expr(value);
                let own = self.operator_behind(target.span());
                self.push(Node::Assign, *op as u32, own, *span, 2);
            }
            Stmt::Expr { expr, span } => {
                self.expr(expr);
                self.push(Node::ExprStmt, 0, self.token_at(span.end - 1), *span, 1);
            }
        }
    }

    fn expr(&mut self, expr: &Expr) {
        let span = expr.span();
        match expr {
            Expr::Int(_) => self.plain(Node::Int, span, 0),
            Expr::Date { .. } => self.plain(Node::Date, span, 0),
            Expr::Str(_) => self.plain(Node::Str, span, 0),
            Expr::Ident(_) => self.plain(Node::Name, span, 0),
            Expr::Caller { .. } => self.plain(Node::Caller, span, 0),
            Expr::Native { .. } => self.plain(Node::Native, span, 0),
            Expr::InAsset { .. } => self.plain(Node::InAsset, span, 0),
            Expr::Now { .. } => self.plain(Node::Now, span, 0),
            Expr::Unary { op, expr, .. } => {
                self.expr(expr);
                self.push(Node::Unary, *op as u32, self.token_at(span.start), span, 1);
            }
            Expr::Binary {
                op, left, right, ..
            } => self.binary(*op, left, right, span),
            Expr::Field { base, name, .. } => self.access(base, name, span),
            Expr::Call { callee, args, .. } => self.call(callee, args, span),
            Expr::Checked { expr, .. } => {
                self.expr(expr);
                self.plain(Node::Checked, span, 1);
            }
            Expr::Wrapping { expr, .. } => {
                self.expr(expr);
                self.plain(Node::Wrapping, span, 1);
            }
        }
    }

    fn binary(&mut self, op: BinOp, left: &Expr, right: &Expr, span: Span) {
        self.expr(left);
        self.expr(right);
        let own = self.operator_behind(left.span());
        self.push(Node::Binary, op as u32, own, span, 2);
    }

    fn access(&mut self, base: &Expr, name: &Ident, span: Span) {
        self.expr(base);
        self.plain(Node::Name, name.span, 0);
        let dot = self.token_at(name.span.start) - 1;
        self.push(Node::Access, 0, dot, span, 2);
    }

    fn call(&mut self, callee: &Expr, args: &[Expr], span: Span) {
        self.expr(callee);
        self.exprs(args);
        let own = self.operator_behind(callee.span());
        self.push(Node::Call, 0, own, span, 1 + args.len());
    }
}
