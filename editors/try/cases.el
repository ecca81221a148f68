;;; cases.el --- Makes the cases of cases.rows in Emacs -*- lexical-binding: t -*-

;; TRY_LOG/cases.json has for each case its file, the line and character of the cursor, an action and its argument.  What
;; is shown afterwards is written to TRY_LOG/shown.json: a text for each, or null where the client doesn't offer the action.
;; An action is the function `try-CLIENT-ACTION', or for both clients `try-ACTION'.

(load (expand-file-name "clients.el" (file-name-directory load-file-name)) nil t)
(require 'flymake)
(require 'imenu)
(require 'json)
(require 'subr-x)
(require 'xref)

(defvar lsp-imenu-index-function)

;; As where there is a window; and else eglot would show a menu of the mouse.
(transient-mark-mode 1)
(setq last-nonmenu-event ?\r)

(defun try-settle ()
  "Waits for the answers to what was asked, to what was asked for these, and once more."
  (dotimes (_ 3)
    (try-ask "documentSymbol")
    (accept-process-output nil 0.05)))

(defun try-text-after (command)
  "Calls COMMAND, and gives the text, after a word where it fails."
  (concat (condition-case why
              (progn (funcall command) "")
            (error (message "%s" (error-message-string why)) "refused\n"))
          (progn (try-settle) (buffer-string))))

(defun try-marked (places)
  "The text with a mark at each of PLACES."
  (let ((text (buffer-string)))
    (with-temp-buffer
      (insert text)
      (dolist (place (sort places #'>) (buffer-string))
        (goto-char place)
        (insert "|")))))

(defun try-in-one-line (from to)
  (string-replace "\n" "␊" (buffer-substring-no-properties from to)))

(defun try-lines (lines)
  (if lines (string-join lines "\n") "nothing"))

(defun try-problem-lines ()
  "The line, column and message of each error and warning that is shown."
  (try-settle)
  (flymake-start)
  (try-settle)
  (mapcar (lambda (it)
            (save-excursion
              (goto-char (flymake-diagnostic-beg it))
              (format "%d:%d %s" (line-number-at-pos) (1+ (current-column))
                      (string-remove-prefix "typst: " (flymake-diagnostic-text it)))))
          (sort (flymake-diagnostics)
                (lambda (one other) (< (flymake-diagnostic-beg one) (flymake-diagnostic-beg other))))))

;; Renames

(defun try-eglot-rename (name)
  (try-text-after (lambda () (eglot-rename name))))

(defun try-lsp-mode-rename (name)
  (try-text-after (lambda ()
                    (cl-letf (((symbol-function 'read-string) (lambda (&rest _) name)))
                      (call-interactively #'lsp-rename)))))

(defun try-lsp-mode-prepare (_)
  (let ((proposed "nothing"))
    (cl-letf (((symbol-function 'read-string) (lambda (_ begin &rest _) (setq proposed begin) (keyboard-quit))))
      (condition-case nil
          (call-interactively #'lsp-rename)
        ((quit error))))
    (substring-no-properties proposed)))

;; Fixes

(defun try-choose (number command)
  "Calls COMMAND, and makes the choice of that NUMBER where it asks for one."
  (let* ((completing-read-function
          (lambda (_ offered &rest _) (nth (1- (string-to-number number)) (all-completions "" offered))))
         (text (try-text-after (lambda () (call-interactively command)))))
    (string-join (cons (string-remove-suffix "\n" text) (try-problem-lines)) "\n")))

(defun try-eglot-fix (number)
  (try-choose number #'eglot-code-actions))

(defun try-lsp-mode-fix (number)
  (let ((lsp-auto-execute-action nil))
    (try-choose number #'lsp-execute-code-action)))

;; Completion

(defun try-take (word from to offered)
  "Puts WORD between FROM and TO as a menu of completions does, if it is one of those OFFERED."
  (when-let ((chosen (car (member word offered))))
    (completion--replace from to (copy-sequence chosen))
    (when-let ((finish (plist-get completion-extra-properties :exit-function)))
      (funcall finish chosen 'finished))))

(defun try-complete (word)
  (let* (offered
         (completion-in-region-function
          (lambda (from to all &optional predicate)
            (setq offered (all-completions (buffer-substring from to) all predicate))
            (try-take word from to offered))))
    (completion-at-point)
    (concat (if offered (string-join (sort (mapcar #'substring-no-properties offered) #'string<) " ") "nothing")
            "\n" (buffer-string))))

;; What is found and shown

(defun try-definition (_)
  (xref-find-definitions (xref-backend-identifier-at-point (xref-find-backend)))
  (try-marked (list (point))))

(defun try-found (command)
  "The text with a mark where each reference begins that COMMAND finds."
  (let* (found
         (xref-show-xrefs-function (lambda (fetch _) (setq found (funcall fetch)))))
    (funcall command)
    (try-marked (mapcar (lambda (it) (marker-position (xref-location-marker (xref-item-location it)))) found))))

(defun try-eglot-references (_)
  (try-found (lambda () (xref-find-references (xref-backend-identifier-at-point (xref-find-backend))))))

(defun try-lsp-mode-references (_)
  (try-found (lambda () (lsp-find-references t))))

(defun try-overlays (is-wanted)
  "The text with a mark at both ends of the overlays for which IS-WANTED holds."
  (try-settle)
  (try-marked (mapcan (lambda (it) (and (funcall is-wanted it) (list (overlay-start it) (overlay-end it))))
                      (overlays-in (point-min) (point-max)))))

;; This version of eglot highlights where it shows what hovers.
(defun try-eglot-highlight (_)
  (eglot-hover-eldoc-function #'ignore)
  (try-overlays (lambda (it) (eq (overlay-get it 'face) 'eglot-highlight-symbol-face))))

(defun try-lsp-mode-highlight (_)
  (lsp-document-highlight)
  (try-overlays (lambda (it) (overlay-get it 'lsp-highlight))))

(defun try-eglot-hover (_)
  (let (shown)
    (eglot-hover-eldoc-function (lambda (info &rest _) (setq shown info)))
    (try-settle)
    (if shown (string-trim (substring-no-properties shown)) "nothing")))

(defun try-lsp-mode-hover (_)
  (when (get-buffer "*lsp-help*") (kill-buffer "*lsp-help*"))
  (save-window-excursion (lsp-describe-thing-at-point))
  (if-let ((help (get-buffer "*lsp-help*")))
      (string-trim (with-current-buffer help (buffer-substring-no-properties (point-min) (point-max))))
    "nothing"))

(defun try-entries (index)
  "The name and place of each entry of an INDEX of imenu."
  (mapcan (lambda (it)
            (if (listp (cdr it)) (try-entries (cdr it)) (list (cons (substring-no-properties (car it)) (cdr it)))))
          index))

(defun try-outline (_)
  ;; Else lsp-mode gives no place to what has entries below it.
  (let* ((lsp-imenu-index-function #'lsp-imenu-create-categorized-index)
         (entries (try-entries (funcall imenu-create-index-function))))
    (try-lines (mapcar (lambda (it) (format "%d %s" (line-number-at-pos (cdr it)) (car it)))
                       (sort entries (lambda (one other) (< (cdr one) (cdr other))))))))

(defun try-problems (_)
  (try-lines (try-problem-lines)))

;; What only lsp-mode has

(defun try-lsp-mode-fold (_)
  (try-lines (mapcar (lambda (it) (try-in-one-line (lsp--folding-range-beg it) (lsp--folding-range-end it)))
                     (sort (lsp--get-folding-ranges)
                           (lambda (one other) (< (lsp--folding-range-beg one) (lsp--folding-range-beg other)))))))

(defun try-lsp-mode-grow (_)
  (let (grown last)
    (lsp-extend-selection)
    (while (not (equal last (cons (region-beginning) (region-end))))
      (setq last (cons (region-beginning) (region-end)))
      (push (try-in-one-line (car last) (cdr last)) grown)
      (lsp-extend-selection))
    (try-lines (nreverse grown))))

(defun try-lsp-mode-enter (_)
  (setq last-command-event ?\r)
  (try-text-after (lambda () (call-interactively #'newline))))

;; The cases

(defun try-shown (case action)
  (delete-other-windows)
  (try-open (gethash "file" case))
  (goto-char (point-min))
  (forward-line (gethash "line" case))
  (forward-char (gethash "column" case))
  (condition-case why
      (substring-no-properties (funcall action (gethash "argument" case)))
    (error (concat "failed: " (error-message-string why)))))

(defun try-case (case)
  (let* ((name (gethash "action" case))
         (action (seq-find #'fboundp (list (intern (format "try-%s-%s" try-client name)) (intern (concat "try-" name))))))
    (if action (try-shown case action) :null)))

(defun try-cases ()
  (let* ((cases (with-temp-buffer
                  (insert-file-contents (expand-file-name "cases.json" (getenv "TRY_LOG")))
                  (json-parse-buffer)))
         (shown (vconcat (mapcar #'try-case cases)))
         (coding-system-for-write 'utf-8-unix))
    (with-temp-buffer
      (json-insert shown)
      (write-region nil nil (expand-file-name "shown.json" (getenv "TRY_LOG")) nil 'silent))
    (try-stop)))

(try-cases)

;;; cases.el ends here
