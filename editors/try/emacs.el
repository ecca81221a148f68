;;; emacs.el --- Edits a document at random in Emacs, and asks the server about it -*- lexical-binding: t -*-

;; TRY_CLIENT is `lsp-mode' or `eglot', TRY_FILE the document, TRY_EDITS how many edits are made, TRY_PACE how many of
;; them before each checkpoint, TRY_SEED what they follow from.  The texts of the buffer at checkpoints are written to
;; TRY_LOG.

(load (expand-file-name "clients.el" (file-name-directory load-file-name)) nil t)
;; A question for tokens marks a checkpoint.
(setq lsp-semantic-tokens-enable nil)

(defvar try-pace (string-to-number (getenv "TRY_PACE")))
(defvar try-pieces
  '("= Hi" "*a*" "_b_" "💛" "ä" "#let x = 1" "#{" "}" "[" "]" "$x^2$" "`r`" "```" "<l>" "@l" "\n- item" "/ t: d" "// c" "/* c"
    "*/" " " "\u2028" "\\" "a" ";" "\n" ""))
(defvar try-questions '("semanticTokens/full" "documentSymbol" "foldingRange"))
(defvar try-fence (make-string 40 ?`))

(defun try-hide-errors ()
  "Leaves errors and warnings unread, which are thousands in a large document.
Emacs would look for the line of each from the start of the buffer, for minutes after each change."
  (if (equal try-client "lsp-mode")
      (advice-add 'lsp--on-diagnostics :override #'ignore)
    (cl-defmethod eglot-handle-notification (_server (_method (eql textDocument/publishDiagnostics)) &rest _))))

(defun try-is-miscounted (place)
  "Whether the client gives PLACE another column than the protocol does.
This version of lsp-mode takes a character outside the BMP for one column."
  (and (equal try-client "lsp-mode")
       (save-excursion
         (goto-char place)
         (seq-some (lambda (it) (> it #xffff)) (buffer-substring (line-beginning-position) place)))))

(defun try-place (from to)
  "A random place from FROM to TO, and not inside a CR LF."
  (let ((place (+ from (random (1+ (- to from))))))
    (cond ((try-is-miscounted place) (save-excursion (goto-char place) (line-beginning-position)))
          ((and (eq (char-before place) ?\r) (eq (char-after place) ?\n)) (1- place))
          (t place))))

(defun try-piece ()
  (let ((piece (nth (random (length try-pieces)) try-pieces)))
    (goto-char (point-min))
    (if (search-forward "\r" nil t) (string-replace "\n" "\r\n" piece) piece)))

(defun try-replace ()
  "Puts a text in the place of another."
  (let* ((new (concat (try-piece) (try-piece)))
         (from (try-place (point-min) (point-max)))
         (to (try-place from (min (point-max) (+ from (random 80))))))
    (delete-region (min from to) (max from to))
    (goto-char (min from to))
    (insert new)))

(defun try-command ()
  "Calls a command that changes lines."
  (goto-char (try-place (point-min) (point-max)))
  (undo-boundary)
  (ignore-errors
    (pcase (random 7)
      (0 (kill-whole-line))
      (1 (beginning-of-line) (yank))
      (2 (transpose-lines 1))
      (3 (upcase-word 1))
      (4 (indent-rigidly (line-beginning-position) (line-beginning-position 4) 2))
      (5 (sort-lines nil (line-beginning-position) (line-beginning-position 4)))
      (6 (setq last-command nil) (undo)))))

(defun try-ask-text ()
  "Asks for the whole text: between two fences it is the name of a heading, so the outline has all of it."
  (goto-char (point-min))
  (insert "= " try-fence "\n")
  (goto-char (point-max))
  (insert "\n" try-fence)
  (try-ask "documentSymbol")
  (delete-region (- (point-max) (length try-fence) 1) (point-max))
  (delete-region (point-min) (+ (point-min) (length try-fence) 3))
  (setq buffer-undo-list nil))

(defun try-checkpoint (number)
  (let ((coding-system-for-write 'utf-8-unix))
    (write-region nil nil (format "%s/text%d" (getenv "TRY_LOG") number) nil 'silent))
  (mapc #'try-ask try-questions)
  (try-ask-text))

(defun try-run ()
  (random (getenv "TRY_SEED"))
  (try-open (getenv "TRY_FILE"))
  (buffer-enable-undo)
  (when (> (buffer-size) 100000) (try-hide-errors))
  (dotimes (number (string-to-number (getenv "TRY_EDITS")))
    (if (zerop (random 2)) (try-replace) (try-command))
    (when (< (random try-pace) 3) (try-ask "foldingRange"))
    (when (zerop (% (1+ number) try-pace)) (try-checkpoint (/ (1+ number) try-pace))))
  (try-stop))

(try-run)

;;; emacs.el ends here
