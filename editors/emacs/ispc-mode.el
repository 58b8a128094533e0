;;; ispc-mode.el --- Sources of ISPC  -*- lexical-binding: t; -*-

;; Package-Requires: ((emacs "27.1"))

;;; Commentary:

;; A mode for the integer subset of the language of Intel's ISPC: its words, its comments, and how its lines are indented.

;;; Code:

(defgroup ispc nil
  "Sources of ISPC."
  :group 'languages)

(defcustom ispc-indent-offset 4
  "How far what stands between braces is indented."
  :type 'integer
  :safe #'integerp)

(defconst ispc-control-words
  '("if" "else" "cif" "while" "cwhile" "do" "cdo" "for" "cfor" "break" "continue" "return" "switch" "case" "default")
  "The words of statements.")

(defconst ispc-foreach-words
  '("foreach" "foreach_tiled" "foreach_active" "foreach_unique" "in")
  "The words of statements that are done in rounds.")

(defconst ispc-rate-words
  '("uniform" "varying")
  "Whether a variable has one value, or one for each lane.")

(defconst ispc-modifier-words
  '("export" "static" "inline" "const")
  "The words that stand before types.")

(defconst ispc-type-words
  '("void" "bool" "unsigned" "int" "int8" "int16" "int32" "int64" "uint" "uint8" "uint16" "uint32" "uint64")
  "The words of types.")

(defconst ispc-truth-words
  '("true" "false")
  "The values of type bool.")

(defconst ispc-lane-words
  '("programIndex" "programCount")
  "The lane, and how many there are.")

(defconst ispc-library-words
  '("any" "all" "none" "reduce_add" "reduce_min" "reduce_max" "reduce_equal" "broadcast" "extract" "insert" "rotate" "shift" "shuffle"
    "exclusive_scan_add" "exclusive_scan_and" "exclusive_scan_or" "min" "max" "clamp" "abs" "select" "popcnt" "lanemask" "packmask"
    "assert" "packed_store_active" "packed_load_active")
  "The names of the library's calls.")

(defconst ispc-number
  (concat "\\(?:0[xX][0-9a-fA-F]+\\|0[bB][01]+\\|0\\|[1-9][0-9]*\\)"
          "\\(?:[uU][lL]?[lL]?\\|[lL][uU]?[lL]?\\|[lL][lL][uU]\\)?")
  "The numbers, with their suffixes.")

(defconst ispc-font-lock-keywords
  (let ((called "[ \t\n]*("))
    `((,(regexp-opt (append ispc-control-words ispc-foreach-words ispc-rate-words ispc-modifier-words) 'symbols) . font-lock-keyword-face)
      (,(regexp-opt ispc-type-words 'symbols) . font-lock-type-face)
      (,(regexp-opt ispc-truth-words 'symbols) . font-lock-constant-face)
      (,(concat (regexp-opt ispc-library-words 'symbols) called) 1 font-lock-builtin-face)
      (,(concat "\\_<\\([A-Za-z_][0-9A-Za-z_]*\\)" called) 1 font-lock-function-name-face)
      (,(regexp-opt ispc-lane-words 'symbols) . font-lock-variable-name-face)
      (,(concat "\\_<" ispc-number "\\_>") . font-lock-constant-face)
      ("\\_<[0-9][0-9A-Za-z_]*" . font-lock-warning-face)))
  "The words with their faces. The first one that finds a place has it.")

(defvar ispc-mode-syntax-table
  (let ((table (make-syntax-table)))
    (modify-syntax-entry ?_ "_" table)
    (modify-syntax-entry ?/ ". 124b" table)
    (modify-syntax-entry ?* ". 23" table)
    (modify-syntax-entry ?\n "> b" table)
    (dolist (mark '(?+ ?- ?% ?& ?| ?^ ?~ ?! ?< ?> ?= ?? ?: ?\; ?, ?. ?\" ?' ?\\ ?$))
      (modify-syntax-entry mark "." table))
    table)
  "Comments and names. There are no strings.")

(defun ispc--is-label ()
  "Whether the line of point begins with a label."
  (save-excursion
    (back-to-indentation)
    (looking-at "\\(?:case\\_>\\|default[ \t]*:\\)")))

(defun ispc--is-switch (brace)
  "Whether a `switch' stands before BRACE."
  (save-excursion
    (goto-char brace)
    (forward-comment (- (point)))
    (and (eq (char-before) ?\))
         (ignore-errors (backward-list) t)
         (progn (forward-comment (- (point))) (looking-back "\\_<switch" (line-beginning-position))))))

(defun ispc--unfinished-line (brace)
  "The indentation of the line before, behind BRACE, where its statement goes on."
  (save-excursion
    (back-to-indentation)
    (forward-comment (- (point)))
    (unless (or (<= (point) (1+ (or brace 0))) (memq (char-before) '(?\; ?{ ?} ?:)))
      (goto-char (if (eq (char-before) ?\)) (or (ignore-errors (scan-lists (point) -1 0)) (point)) (point)))
      (current-indentation))))

(defun ispc--between-braces (brace)
  "The indentation of the line of point, which stands between BRACE and its end."
  (let ((base (save-excursion (goto-char brace) (current-indentation))))
    (cond
     ((eq (char-after) ?\}) base)
     ((and (ispc--is-switch brace) (not (ispc--is-label))) (+ base (* 2 ispc-indent-offset)))
     (t (+ base ispc-indent-offset)))))

(defun ispc--indentation ()
  "The indentation of the line of point, or nil where it stays as it is."
  (save-excursion
    (back-to-indentation)
    (let* ((state (syntax-ppss))
           (open (nth 1 state))
           (unfinished (ispc--unfinished-line open)))
      (cond
       ((nth 4 state) nil)
       ((and open (not (eq (char-after open) ?{))) (save-excursion (goto-char (1+ open)) (current-column)))
       ((and unfinished (not (eq (char-after) ?{))) (+ unfinished ispc-indent-offset))
       (unfinished unfinished)
       (open (ispc--between-braces open))
       (t 0)))))

(defun ispc-indent-line ()
  "Indents the line of point."
  (let ((column (ispc--indentation))
        (behind (- (current-column) (current-indentation))))
    (when column
      (indent-line-to column)
      (when (> behind 0)
        (move-to-column (+ column behind))))))

(defvar ispc-mode-map (make-sparse-keymap)
  "The keys in sources.")

;;;###autoload
(define-derived-mode ispc-mode prog-mode "ISPC"
  "A mode for sources of the integer subset of the language of Intel's ISPC."
  (setq-local font-lock-defaults '(ispc-font-lock-keywords))
  (setq-local comment-start "// ")
  (setq-local comment-end "")
  (setq-local comment-start-skip "\\(?://+\\|/\\*+\\)[ \t]*")
  (setq-local indent-line-function #'ispc-indent-line)
  (setq-local indent-tabs-mode nil)
  (setq-local electric-indent-chars (append "{}:" electric-indent-chars))
  (setq-local imenu-generic-expression '((nil "^[a-z][^;={}(]*\\_<\\([A-Za-z_][0-9A-Za-z_]*\\)[ \t]*(" 1))))

;;;###autoload
(add-to-list 'auto-mode-alist '("\\.ispc\\'" . ispc-mode))

(provide 'ispc-mode)

;;; ispc-mode.el ends here
