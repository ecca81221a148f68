;;; clients.el --- Starts and asks the clients of Emacs -*- lexical-binding: t -*-

;; TRY_CLIENT is `lsp-mode' or `eglot', set up as editors/README.md says.

(require 'package)
(package-initialize)
(require 'cl-lib)
(require 'seq)
(setq read-process-output-max 1000000)

(defvar try-client (getenv "TRY_CLIENT"))
(defvar try-folder (file-name-directory load-file-name))

(define-derived-mode typst-mode text-mode "Typst"
  (modify-syntax-entry ?< ".")
  (modify-syntax-entry ?> ".")
  (modify-syntax-entry ?: "_")
  (setq-local font-lock-defaults '(nil)))
(add-to-list 'auto-mode-alist '("\\.typ\\'" . typst-mode))

(defun try-load-lsp-mode ()
  (load (expand-file-name "../typst-lsp-mode.el" try-folder) nil t)
  (setq lsp-auto-guess-root t
        lsp-enable-file-watchers nil
        lsp-restart 'ignore
        lsp-response-timeout 900)
  (lsp-workspace-folders-add default-directory))

(defun try-load-eglot ()
  (require 'eglot)
  (add-to-list 'eglot-server-programs '(typst-mode . ("typst_lsp")))
  (add-hook 'typst-mode-hook #'eglot-ensure)
  (setq eglot-sync-connect 60
        eglot-events-buffer-size 0))

(funcall (intern (concat "try-load-" try-client)))

(defun try-is-started ()
  (if (equal try-client "lsp-mode")
      (seq-some (lambda (it) (eq (lsp--workspace-status it) 'initialized)) (lsp-workspaces))
    (eglot-managed-p)))

(defun try-open (file)
  "Opens FILE, and waits until the client knows it."
  (let ((coding-system-for-read 'utf-8-unix))
    (find-file file))
  (run-hooks 'post-command-hook)
  (while (not (try-is-started))
    (accept-process-output nil 0.1)))

(defun try-ask (method)
  "Asks METHOD about the document, and returns the answer."
  (if (equal try-client "lsp-mode")
      (lsp-request (concat "textDocument/" method) (list :textDocument (lsp--text-document-identifier)))
    (eglot--signal-textDocument/didChange)
    (jsonrpc-request (eglot-current-server) (intern (concat ":textDocument/" method))
                     (list :textDocument (eglot--TextDocumentIdentifier)) :timeout 900)))

(defun try-stop ()
  (if (equal try-client "eglot")
      (eglot-shutdown (eglot-current-server))
    (lsp-workspace-shutdown (car (lsp-workspaces)))
    (accept-process-output nil 1)))

;;; clients.el ends here
